//! A terminal: the bytes that a program writes become changes of a surface.
//!
//! A [`Terminal`] is fed what a program writes to its terminal, cut anywhere, and shows it on its
//! [`Surface`]. It knows the sequences that terminfo's entries `xterm-256color`, `tmux-256color`
//! and `screen-256color` name, so that a program's `TERM` may be any of them. It has no pty and no
//! window: whoever embeds it brings the bytes, and sends the program its keys and the
//! [reports](Terminal::take_reports) that it asks for.
//!
//! ```
//! use tikeburo_terminal::Terminal;
//!
//! let mut terminal = Terminal::new(20, 2)?;
//! terminal.feed(b"\x1b[1mbold\x1b[m\r\nplain\x1b[6n")?;
//! assert_eq!(terminal.surface().row(1).text()?.trim_end(), "plain");
//! assert_eq!(terminal.take_reports(), b"\x1b[2;6R"); // for the program
//! # Ok::<(), tikeburo::Error>(())
//! ```
//!
//! What it doesn't know changes nothing, and is [counted](Terminal::unknown_count): images, rows of
//! double size, the clipboard of `OSC 52`, and each string of `DCS`, `APC`, `PM` or `SOS`, which is
//! skipped. Of a link of `OSC 8` it keeps the uri and the `id` that joins links in several places,
//! and no other parameter. The crate's page has what else it knows, and what xterm does otherwise.
//!
//! A string of `OSC` has 1,023 bytes at most. A longer title is cut, and a longer link is none.
//!
//! # What is never shown
//!
//! [`Terminal::feed`] makes the changes that its bytes lead to, and leaves out others: those whose
//! texts scroll off before it returns, where no [scrollback](Terminal::keep_scrollback) keeps them,
//! those that a clear of the whole screen removes, and those of a row's end that is written again.
//! Large chunks of a long output so take less than small ones.
#![deny(missing_docs)]
#![forbid(unsafe_code)]
#![warn(clippy::missing_errors_doc, clippy::must_use_candidate)]

mod batch;
mod charset;
mod colors;
mod cursor;
mod edit;
mod emulator;
mod input;
mod modes;
mod moves;
mod params;
mod perform;
mod print;
mod reflow;
mod reports;
mod screens;
mod segments;
mod sequences;
mod settings;
mod shift;
mod skips;
mod tabs;
mod text;
mod titles;
mod widths;

/// Tests the programs of the crate's page.
#[cfg(doctest)]
#[doc = include_str!("../README.md")]
struct Readme;

pub use colors::Colors;
pub use modes::{Modes, MouseEncoding, MouseTracking};
pub use widths::wcwidth_widths;

use emulator::Emulator;
use input::Input;
use std::fmt;
use std::mem;
use tikeburo::{Changes, Error, Lines, Options, Surface};

/// The most columns, and the most rows, that a terminal may have.
const MOST: usize = u16::MAX as usize;

/// A surface that shows what a program writes to its terminal.
pub struct Terminal {
    input: Input,
    emulator: Emulator,
}

impl Terminal {
    /// A blank terminal of this width in columns and height in rows, each from 1 to 65,535, that
    /// measures texts by Unicode.
    ///
    /// # Errors
    ///
    /// [`Error::Range`]: the size. [`Error::Memory`].
    pub fn new(width: usize, height: usize) -> Result<Terminal, Error> {
        Terminal::with_options(width, height, Options::default())
    }

    /// A blank terminal of this size, whose surface is made with these options.
    ///
    /// # Errors
    ///
    /// Those of [`Terminal::new`].
    pub fn with_options(width: usize, height: usize, options: Options) -> Result<Terminal, Error> {
        check_size(width, height)?;
        Ok(Terminal {
            input: Input::default(),
            emulator: Emulator::new(width, height, options)?,
        })
    }

    /// Takes bytes that a program writes, cut anywhere: a character, a grapheme or a sequence may
    /// go on in the next ones. Bytes that are no UTF-8 are shown as U+FFFD.
    ///
    /// # Errors
    ///
    /// [`Error::Numbers`] and [`Error::Memory`], as of [`Surface::add_change`]. All bytes are
    /// taken, but the surface may lack some of the changes.
    pub fn feed(&mut self, bytes: &[u8]) -> Result<(), Error> {
        self.input.feed(bytes, &mut self.emulator);
        self.emulator.finish()
    }

    /// Takes another size in columns and rows. Rows are cut or filled with blanks at the right, and
    /// at the bottom. Where the cursor's row would be cut, rows at the top scroll off instead. The
    /// margins are those of the whole screen then. Lines that were wrapped stay as they are, unless
    /// [`Terminal::set_reflow`] is on.
    ///
    /// # Errors
    ///
    /// [`Error::Range`]: the size, as of [`Terminal::new`]; nothing has changed. [`Error::Numbers`]
    /// and [`Error::Memory`], as of [`Surface::resize`]. Where lines are wrapped anew, the kept
    /// rows may be lost then.
    pub fn resize(&mut self, width: usize, height: usize) -> Result<(), Error> {
        check_size(width, height)?;
        self.emulator.resize(width, height)?;
        self.emulator.finish()
    }

    /// Sets whether [`Terminal::resize`] wraps the lines of the main screen and of the scrollback
    /// anew where the width changes. It is off at first. While it is on, the last cell of a row
    /// that goes on in the next one is marked as [wrapped](tikeburo::Attributes::wrapped); rows
    /// that were filled before are lines of their own. Spaces at the end of a line that is wrapped
    /// anew are dropped.
    ///
    /// ```
    /// use tikeburo_terminal::Terminal;
    ///
    /// let mut terminal = Terminal::new(8, 3)?;
    /// terminal.set_reflow(true);
    /// terminal.feed(b"one two three")?;
    /// assert_eq!(terminal.surface().row(1).text()?.trim_end(), "three");
    /// terminal.resize(20, 3)?;
    /// assert_eq!(terminal.surface().row(0).text()?.trim_end(), "one two three");
    /// # Ok::<(), tikeburo::Error>(())
    /// ```
    pub fn set_reflow(&mut self, is_on: bool) {
        self.emulator.reflows = is_on;
    }

    /// What it shows.
    #[must_use]
    pub fn surface(&self) -> &Surface {
        &self.emulator.surface
    }

    /// The surface, for [`Surface::respond`], [`Surface::keep_changes`] and
    /// [`Recorder::record`](tikeburo::Recorder::record). A change that is made on it directly may
    /// leave the terminal's texts in another place or pen than a program expects.
    pub fn surface_mut(&mut self) -> &mut Surface {
        &mut self.emulator.surface
    }

    /// Keeps the rows that scroll off the main screen from now on, the last `limit` of them. Rows
    /// that were kept before are dropped.
    ///
    /// ```
    /// use tikeburo::RowBuffer;
    /// use tikeburo_terminal::Terminal;
    ///
    /// let mut terminal = Terminal::new(20, 2)?;
    /// terminal.keep_scrollback(1000)?;
    /// terminal.feed(b"one\r\ntwo\r\nthree")?;
    /// let lines = terminal.scrollback().unwrap();
    /// let mut line = RowBuffer::new();
    /// lines.read(0, &mut line)?;
    /// assert_eq!((lines.len(), line.text().trim_end()), (1, "one"));
    /// # Ok::<(), tikeburo::Error>(())
    /// ```
    ///
    /// # Errors
    ///
    /// [`Error::Memory`]: what was kept before still is.
    pub fn keep_scrollback(&mut self, limit: usize) -> Result<(), Error> {
        self.emulator.scrollback = Some(Scrollback::new(limit)?);
        Ok(())
    }

    /// The rows that have scrolled off, the oldest one first, where they are kept.
    #[must_use]
    pub fn scrollback(&self) -> Option<&Lines> {
        self.emulator.scrollback.as_ref().map(|it| &it.lines)
    }

    /// The modes that the program has set for keys, pastes and the mouse, and for its texts.
    #[must_use]
    pub fn modes(&self) -> &Modes {
        &self.emulator.modes
    }

    /// Whether the alternate screen is shown.
    #[must_use]
    pub fn is_alternate_screen(&self) -> bool {
        self.emulator.screens.is_alternate
    }

    /// The title of the window's icon. That of the window is the surface's.
    #[must_use]
    pub fn icon_title(&self) -> &str {
        self.emulator.titles.icon()
    }

    /// The colours that are reported to programs, as they have set them.
    #[must_use]
    pub fn colors(&self) -> &Colors {
        &self.emulator.colors
    }

    /// Sets the colours that are reported to programs, and that a program's reset brings back.
    pub fn set_colors(&mut self, colors: Colors) {
        self.emulator.usual_colors = colors.clone();
        self.emulator.colors = colors;
    }

    /// Returns the reports that the program has asked for since the last call: the kind of
    /// terminal, the cursor's place, colours and modes. Send them to the program as its keys are
    /// sent. At most 65,536 bytes are kept; a report that has no room is dropped.
    #[must_use]
    pub fn take_reports(&mut self) -> Vec<u8> {
        mem::take(&mut self.emulator.reports)
    }

    /// Returns how many times the bell was rung since the last call.
    #[must_use]
    pub fn take_bells(&mut self) -> usize {
        mem::take(&mut self.emulator.bells)
    }

    /// Returns how many sequences and strings have come that are unknown, or have an unknown part.
    /// An unknown one changes nothing, and of the others the known parts count.
    #[must_use]
    pub fn unknown_count(&self) -> usize {
        self.emulator.unknown
    }
}

fn check_size(width: usize, height: usize) -> Result<(), Error> {
    let is_right = (1..=MOST).contains(&width) && (1..=MOST).contains(&height);
    is_right.then_some(()).ok_or(Error::Range)
}

impl fmt::Debug for Terminal {
    fn fmt(&self, f: &mut fmt::Formatter<'_>) -> fmt::Result {
        f.debug_struct("Terminal")
            .field("surface", self.surface())
            .finish_non_exhaustive()
    }
}

/// The last rows that scrolled off, up to a limit.
struct Scrollback {
    lines: Lines,
    limit: usize,
}

impl Scrollback {
    fn new(limit: usize) -> Result<Scrollback, Error> {
        let lines = Lines::new()?;
        Ok(Scrollback { lines, limit })
    }

    /// Makes the changes, and keeps the rows that they scroll off.
    fn make(&mut self, surface: &mut Surface, changes: &Changes) -> Result<(), Error> {
        surface.add_scrolling(changes, &mut self.lines)?;
        self.drop_oldest()
    }

    /// Drops the oldest ones past the limit.
    fn drop_oldest(&mut self) -> Result<(), Error> {
        let len = self.lines.len();
        self.lines.remove_first(len.saturating_sub(self.limit))
    }

    /// Drops all of them.
    fn forget(&mut self) -> Result<(), Error> {
        self.lines.remove_first(self.lines.len())
    }
}
