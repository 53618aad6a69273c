//! What a terminal has.

use super::colors::Colors;
use crate::widths::Widths;

/// What the terminal has that a [`Renderer`](super::Renderer) writes for: its size, and what it
/// understands beside moves, pens and texts.
///
/// ```
/// use tikeburo::render::{Colors, Options};
///
/// let options = Options::new(80, 24)
///     .colors(Colors::Indexed256)
///     .erases_with_background(false)
///     .synchronized(true);
/// assert_eq!(options.size(), (80, 24));
/// ```
#[derive(Clone, Copy, PartialEq, Eq, Hash, Debug)]
pub struct Options {
    pub(super) width: usize,
    pub(super) height: usize,
    pub(super) widths: Widths,
    pub(super) colors: Colors,
    pub(super) erases_with_background: bool,
    pub(super) styled_underlines: bool,
    pub(super) synchronized: bool,
    pub(super) line_attributes: bool,
}

impl Options {
    /// A terminal of this width in columns and height in rows, each at least 1, with true colours,
    /// that measures texts by Unicode, erases with the pen's background, and knows styled
    /// underlines. Updates aren't synchronized, and each line is shown in its usual size.
    #[must_use]
    pub fn new(width: usize, height: usize) -> Options {
        Options {
            width: width.max(1),
            height: height.max(1),
            widths: Widths::Unicode,
            colors: Colors::True,
            erases_with_background: true,
            styled_underlines: true,
            synchronized: false,
            line_attributes: false,
        }
    }

    /// The width in columns and the height in rows.
    #[must_use]
    pub fn size(&self) -> (usize, usize) {
        (self.width, self.height)
    }

    /// How the surface measures texts that [`Renderer::changes`](super::Renderer::changes) makes
    /// changes of. The terminal has to measure as each screen does that it is to show.
    #[must_use]
    pub fn widths(self, widths: Widths) -> Options {
        Options { widths, ..self }
    }

    /// The colours that it has.
    #[must_use]
    pub fn colors(self, colors: Colors) -> Options {
        Options { colors, ..self }
    }

    /// Whether cells that it erases, and rows that scroll in, get the background of the pen, as
    /// terminfo's `bce` says. Where they don't, blanks with a background are printed.
    #[must_use]
    pub fn erases_with_background(self, erases_with_background: bool) -> Options {
        Options {
            erases_with_background,
            ..self
        }
    }

    /// Whether it knows underlines that are double, curly, dotted or dashed, and their colours.
    /// Where it doesn't, all are single.
    #[must_use]
    pub fn styled_underlines(self, styled_underlines: bool) -> Options {
        Options {
            styled_underlines,
            ..self
        }
    }

    /// Whether each write is one synchronized update: the terminal shows it at once, and not by
    /// parts. One that doesn't know them leaves the two sequences out.
    #[must_use]
    pub fn synchronized(self, synchronized: bool) -> Options {
        Options {
            synchronized,
            ..self
        }
    }

    /// Whether lines of double width and height are shown so. The terminal shows the left half of
    /// the columns of such a row then. Where this is off, each line has its usual size.
    #[must_use]
    pub fn line_attributes(self, line_attributes: bool) -> Options {
        Options {
            line_attributes,
            ..self
        }
    }
}
