//! Shows screens on a terminal: changes, or what a screen shows, become escape sequences.
//!
//! A [`Renderer`] keeps what the terminal shows, and the state that it is in: its cursor, pen,
//! link, title, and the cursor's shape, colour and visibility. It writes what the terminal lacks,
//! by few bytes: the shortest of moves, what differs of a pen, erased blanks, and scrolls of rows
//! that are still to be seen.
//!
//! ```
//! use tikeburo::render::{Options, Renderer};
//! use tikeburo::Surface;
//!
//! let mut surface = Surface::new(20, 3)?;
//! let mut renderer = Renderer::new(Options::new(20, 3));
//! let mut out = Vec::new(); // or the terminal, by `std::io::stdout()`
//! surface.add_change("hello か")?;
//! renderer.show(&mut out, &surface)?;
//!
//! out.clear();
//! surface.add_change("\r\nsame screen")?;
//! renderer.show(&mut out, &surface)?;
//! assert_eq!(out, b"\r\nsame screen");
//! # Ok::<(), Box<dyn std::error::Error>>(())
//! ```
//!
//! # What the caller does
//!
//! The caller puts the terminal into its raw mode, and where it wants the alternate screen, turns
//! to it before the first write and back after [`Renderer::end`]. The terminal's rows are those
//! from its first one on, and its origin mode and insert mode are off, as they are by default.
//!
//! # Where a terminal can't show a screen
//!
//! - A wide text of which the last column has the first half is a blank.
//! - A text that begins with a character of no columns, as a combining mark in a cell of its own,
//!   stands on a space: it would join the cell before.
//! - Texts of two cells that would be one grapheme are written with a move between.
//! - After a text that terminals measure in two ways, such as an emoji of several characters, the
//!   cursor is moved by its place on the screen. Near the end of a row it is written with wrapping
//!   off.
//! - Control characters are left out: of cells, titles and links.
//! - A link to an empty uri, or to one of more than 2083 bytes as it is encoded, is none.
//! - What a text is to a shell, and whether it is raised or lowered, isn't shown.
//!
//! Blanks have their background, and of their other attributes only what is seen.
//!
//! # What a write costs
//!
//! Of the [`Screen`] that was shown last, only the rows are read that may have changed since then;
//! of another one all rows are. Cells are compared only in rows that differ from what the terminal
//! shows.

mod colors;
mod compose;
mod error;
mod line;
mod moves;
mod options;
mod pen;
mod rows;
mod runs;
mod scrolls;
mod settings;
mod sgr;
mod terminal;
mod texts;
mod version;

pub use colors::Colors;
pub use error::Error;
pub use options::Options;

use crate::changes::Changes;
use crate::rows::RowBuffer;
use crate::screen::Screen;
use crate::surface::Surface;
use line::Line;
use pen::Pen;
use std::fmt;
use std::io::Write;
use std::sync::Arc;
use terminal::Terminal;
use version::Version;

/// Writes to a terminal what it lacks of a screen.
///
/// Each write is one call of [`Write::write_all`], and one of [`Write::flush`]. Nothing is written
/// where the terminal lacks nothing. A new renderer takes it that the terminal may show anything,
/// and that its cursor has its own shape and colour.
pub struct Renderer {
    options: Options,
    terminal: Terminal,
    /// What the terminal shows, where that is known.
    shown: Option<Shown>,
    /// What changes are made on.
    surface: Option<Surface>,
    buffer: RowBuffer,
}

/// The rows of a terminal, and the version of the screen of which they were read.
struct Shown {
    lines: Vec<Arc<Line>>,
    version: Version,
}

impl Renderer {
    /// A renderer for a terminal that has this size and knows this.
    #[must_use]
    pub fn new(options: Options) -> Renderer {
        Renderer {
            terminal: Terminal::new(&options),
            options,
            shown: None,
            surface: None,
            buffer: RowBuffer::new(),
        }
    }

    /// What the terminal has.
    #[must_use]
    pub fn options(&self) -> &Options {
        &self.options
    }

    /// Writes what the terminal lacks of a screen, which is cut or has blanks around it where the
    /// terminal has another size. The first write, and one after [`Renderer::reset`] or a failure,
    /// resets the terminal and draws all.
    ///
    /// # Errors
    ///
    /// [`Error::Write`], and [`Error::Screen`] where memory is refused. The next write begins by
    /// a reset.
    ///
    /// # Examples
    ///
    /// ```
    /// use tikeburo::render::{Options, Renderer};
    /// use tikeburo::{Changes, Surface};
    ///
    /// let mut surface = Surface::new(20, 3)?;
    /// let mut renderer = Renderer::new(Options::new(20, 3));
    /// let mut out = Vec::new();
    /// surface.add_change("one two three")?;
    /// renderer.show(&mut out, &surface)?;
    ///
    /// out.clear();
    /// surface.add(Changes::new().move_to(4, 0).italic(true).text("2  "))?;
    /// renderer.show(&mut out, &surface)?;
    /// assert_eq!(out, b"\x1b[9D\x1b[3m2  ");
    /// # Ok::<(), Box<dyn std::error::Error>>(())
    /// ```
    pub fn show<W>(&mut self, out: &mut W, screen: &Screen) -> Result<(), Error>
    where
        W: Write + ?Sized,
    {
        let shown = self.compose(screen).and_then(|()| self.send(out));
        if shown.is_err() {
            self.reset();
        }
        shown
    }

    /// Makes changes on a surface of the renderer's own, which has the terminal's size and is
    /// blank at first, and writes what the terminal lacks of it, as [`Renderer::show`] does.
    /// Whoever follows another surface passes what [`Screen::read_changes`] returns, from 0 on.
    ///
    /// # Errors
    ///
    /// [`Error::Screen`]: the changes are refused, as by [`Surface::add`], and nothing has
    /// changed. Where that is [`Error::Memory`](crate::Error::Memory), the surface is blank again,
    /// and the next write begins by a reset. [`Error::Write`]: the changes are made, and the next
    /// write begins by a reset.
    ///
    /// # Examples
    ///
    /// ```
    /// use tikeburo::render::{Options, Renderer};
    /// use tikeburo::{Changes, ColorAttribute};
    ///
    /// let mut renderer = Renderer::new(Options::new(20, 3));
    /// let mut out = Vec::new();
    /// renderer.changes(&mut out, &Changes::new())?;
    ///
    /// out.clear();
    /// let mut changes = Changes::new();
    /// changes.move_to(2, 1).foreground(ColorAttribute::PaletteIndex(1)).text("red");
    /// renderer.changes(&mut out, &changes)?;
    /// assert_eq!(out, b"\n\x1b[2C\x1b[31mred");
    /// # Ok::<(), Box<dyn std::error::Error>>(())
    /// ```
    pub fn changes<W>(&mut self, out: &mut W, changes: &Changes) -> Result<(), Error>
    where
        W: Write + ?Sized,
    {
        let mut surface = match self.surface.take() {
            Some(surface) => surface,
            None => self.new_surface()?,
        };
        let made = surface.add(changes).map_err(Error::Screen);
        let shown = made.and_then(|_| self.show(out, &surface));
        match shown {
            Err(Error::Screen(crate::Error::Memory)) => self.reset(),
            _ => self.surface = Some(surface),
        }
        shown
    }

    /// Resets the terminal, and draws all that a screen shows, as where something else has written
    /// to the terminal.
    ///
    /// # Errors
    ///
    /// Those of [`Renderer::show`].
    pub fn repaint<W>(&mut self, out: &mut W, screen: &Screen) -> Result<(), Error>
    where
        W: Write + ?Sized,
    {
        self.reset();
        self.show(out, screen)
    }

    /// Takes it that the terminal shows the rows of this screen already. So what turns one screen
    /// into another one is written to a terminal that this renderer hasn't drawn.
    ///
    /// # Errors
    ///
    /// [`Error::Screen`]: memory is refused, and what the terminal shows is as before.
    ///
    /// # Examples
    ///
    /// ```
    /// use tikeburo::render::{Options, Renderer};
    /// use tikeburo::Surface;
    ///
    /// let mut old = Surface::new(20, 1)?;
    /// old.add_change("hello, world")?;
    /// let mut new = Surface::new(20, 1)?;
    /// new.add_change("hello, there")?;
    ///
    /// let mut renderer = Renderer::new(Options::new(20, 1));
    /// let mut out = Vec::new();
    /// renderer.assume(&old)?;
    /// renderer.show(&mut out, &new)?;
    /// assert_eq!(out, b"\x1b[;8H\x1b]8;;\x1b\\\x1b[mthere\x1b[?25h");
    /// # Ok::<(), Box<dyn std::error::Error>>(())
    /// ```
    pub fn assume(&mut self, screen: &Screen) -> Result<(), Error> {
        self.shown = Some(self.read(screen)?);
        Ok(())
    }

    /// Takes it that nothing is known of the terminal: the next write resets it, and draws all.
    pub fn reset(&mut self) {
        self.shown = None;
        self.terminal.forget();
    }

    /// Takes another size of the terminal, in columns and rows, each at least 1. Terminals move
    /// rows then, so that the next write draws all. The surface of [`Renderer::changes`] is
    /// resized, too.
    ///
    /// # Errors
    ///
    /// [`Error::Screen`], as by [`Surface::resize`]: the surface of [`Renderer::changes`] is blank
    /// again, and the size is the new one.
    pub fn resize(&mut self, width: usize, height: usize) -> Result<(), Error> {
        let (width, height) = (width.max(1), height.max(1));
        self.options = Options {
            width,
            height,
            ..self.options
        };
        self.reset();
        if let Some(mut surface) = self.surface.take() {
            surface.resize(width, height)?;
            self.surface = Some(surface);
        }
        Ok(())
    }

    /// Leaves the terminal as it was found, but for its rows: with a default pen and no link, the
    /// cursor shown, with its own shape and colour, and the title that it had. The cursor stays
    /// where it is, unless nothing is known of the terminal: then it goes to the first column and
    /// row. The next write begins by a reset.
    ///
    /// # Errors
    ///
    /// [`Error::Write`].
    pub fn end<W>(&mut self, out: &mut W) -> Result<(), Error>
    where
        W: Write + ?Sized,
    {
        if self.shown.is_none() {
            self.recover();
        }
        self.terminal.set_pen(&Pen::default());
        self.terminal.settings.end(&mut self.terminal.bytes);
        let sent = self.send(out);
        self.reset();
        sent
    }
}

impl fmt::Debug for Renderer {
    fn fmt(&self, f: &mut fmt::Formatter<'_>) -> fmt::Result {
        f.debug_struct("Renderer")
            .field("options", &self.options)
            .finish_non_exhaustive()
    }
}
