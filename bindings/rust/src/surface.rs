//! Surfaces, and at the paths that termwiz has for them, changes.

#[doc(no_inline)]
pub use crate::change::{
    Change, CursorShape, CursorVisibility, LineAttribute, Position, SequenceNo, SEQ_ZERO,
};
use crate::changes::Changes;
use crate::client::Ask;
use crate::error::Error;
use crate::ffi::{self, tk_change, tk_handle};
use crate::handle::{self, Handle};
use crate::lines::Lines;
use crate::rows::{Row, Rows};
use crate::screen::Screen;
use crate::widths::Widths;
use std::collections::hash_map::RandomState;
use std::fmt;
use std::hash::{BuildHasher, Hasher};
use std::ops::Deref;

/// Changes, and sequences of them.
pub mod change {
    #[doc(no_inline)]
    pub use crate::change::{Change, LineAttribute};
    #[doc(no_inline)]
    pub use crate::sequence::ChangeSequence;
}

/// What a surface is made with.
///
/// ```
/// use tikeburo::{Error, Options, Surface, Widths};
///
/// let options = Options::new().widths(Widths::OneColumn);
/// let mut surface = Surface::with_options(8, 1, options)?;
/// surface.add_change("か")?;
/// assert_eq!(surface.cursor_position(), (1, 0));
/// # Ok::<(), Error>(())
/// ```
#[derive(Clone, Copy, PartialEq, Eq, Hash, Debug, Default)]
pub struct Options {
    widths: Widths,
}

impl Options {
    /// The usual ones: texts are measured by Unicode.
    #[must_use]
    pub fn new() -> Options {
        Options::default()
    }

    /// How the surface measures texts.
    #[must_use]
    pub fn widths(self, widths: Widths) -> Options {
        Options { widths }
    }
}

/// What a terminal's screen shows, with no terminal behind it: a [`Screen`], the pen, which is the
/// attributes of coming texts, and the changes that were made last. It forgets those that no answer
/// needs.
///
/// ```
/// use tikeburo::{Change, CursorVisibility, Surface};
///
/// let mut surface = Surface::new(20, 3)?;
/// surface.add_change("first\r\nsecond")?;
/// surface.add_change(Change::CursorVisibility(CursorVisibility::Hidden))?;
/// assert_eq!(surface.cursor_position(), (6, 1));
/// assert_eq!(surface.current_seqno(), 2);
/// # Ok::<(), tikeburo::Error>(())
/// ```
pub struct Surface {
    screen: Screen,
    source: usize,
    keeps_changes: bool,
}

impl Surface {
    /// A blank surface of this width in columns and height in rows, each from 1 to 2^32 - 1, that
    /// measures texts by Unicode.
    ///
    /// # Errors
    ///
    /// [`Error::Range`]: the size. [`Error::Memory`].
    pub fn new(width: usize, height: usize) -> Result<Surface, Error> {
        Surface::with_options(width, height, Options::default())
    }

    /// A blank surface of this size.
    ///
    /// # Errors
    ///
    /// Those of [`Surface::new`].
    pub fn with_options(width: usize, height: usize, options: Options) -> Result<Surface, Error> {
        Surface::with_source(width, height, options.widths, source_number())
    }

    /// A blank surface of this number, which is another one's too only where nothing follows it.
    pub(crate) fn with_source(
        width: usize,
        height: usize,
        widths: Widths,
        source: usize,
    ) -> Result<Surface, Error> {
        // Safety: the handle is all zero before, and a table stays as it is.
        let handle = Handle::made(|handle| match widths.number_or_table() {
            Ok(widths) => unsafe { ffi::tk_surface_new(handle, width, height, widths, source) },
            Err(table) => {
                let (ranges, count) = table.parts();
                unsafe { ffi::tk_surface_new_by(handle, width, height, ranges, count, source) }
            }
        })?;
        Ok(Surface {
            screen: Screen::new(handle, widths),
            source,
            keeps_changes: true,
        })
    }

    /// A surface that shows the rows that another screen shows now, as a copy to be drawn later,
    /// and measures texts as that does. Cursor, pen and title are those of a new one. There is no
    /// `Clone`, since that can't fail.
    ///
    /// # Errors
    ///
    /// [`Error::Memory`].
    ///
    /// # Examples
    ///
    /// ```
    /// use tikeburo::{ColorAttribute, Change, Error, Surface};
    ///
    /// let mut surface = Surface::new(8, 2)?;
    /// surface.add_change("one\r\ntwo")?;
    /// let copy = Surface::copy_of(&surface)?;
    /// surface.add_change(Change::ClearScreen(ColorAttribute::Default))?;
    /// surface.draw_from_screen(&copy, 0, 0)?;
    /// assert_eq!(surface.row(1).text()?.trim_end(), "two");
    /// # Ok::<(), Error>(())
    /// ```
    pub fn copy_of(screen: &Screen) -> Result<Surface, Error> {
        let (width, height) = screen.dimensions();
        let options = Options::new().widths(screen.widths());
        let mut surface = Surface::with_options(width, height, options)?;
        surface.draw_from_screen(screen, 0, 0)?;
        Ok(surface)
    }

    /// Whether the surface keeps the changes that are added to it, as a new one does, for viewers
    /// and clients that lack some of them. One that keeps none copies no text, and answers by the
    /// whole screen whoever lacks a change. Draws and copies are kept either way.
    ///
    /// ```
    /// use tikeburo::{Client, Error, Surface};
    ///
    /// let mut surface = Surface::new(8, 2)?;
    /// surface.keep_changes(false);
    /// surface.print("one")?;
    /// surface.print("\r\ntwo")?;
    /// assert_eq!(surface.current_seqno(), 2);
    /// let mut client = Client::new()?;
    /// client.feed(&surface.respond(&client.ask()?)?)?;
    /// assert_eq!(client.screen().row(1).text()?.trim_end(), "two");
    /// # Ok::<(), Error>(())
    /// ```
    pub fn keep_changes(&mut self, keep: bool) {
        self.keeps_changes = keep;
    }

    /// Makes a change, and returns its number.
    ///
    /// # Errors
    ///
    /// [`Error::ScrollRegion`] and [`Error::Numbers`]: nothing has changed. [`Error::Memory`]: the
    /// surface may show anything in its size.
    pub fn add_change(&mut self, change: impl Into<Change>) -> Result<SequenceNo, Error> {
        let number = self.current_seqno();
        let mut changes = Changes::new();
        changes.push(&change.into());
        self.add(&changes)?;
        Ok(number)
    }

    /// Makes changes in order, and returns the number of the last, as termwiz counts it: the number
    /// before, less one unless it is 0, plus how many they are. So the changes of the first list are
    /// counted from 1 on, and later ones by the numbers that they have, which begin with 0: a change
    /// that is made twice, each time as a list, returns 1 and 1.
    ///
    /// # Errors
    ///
    /// [`Error::ScrollRegion`]: the region of a scroll goes past the last row, and nothing has
    /// changed. [`Error::Numbers`] and [`Error::Memory`], as of [`Surface::add_change`].
    ///
    /// # Examples
    ///
    /// ```
    /// use tikeburo::{Change, Error, Surface};
    ///
    /// let mut surface = Surface::new(4, 2)?;
    /// let scroll = Change::ScrollRegionUp { first_row: 1, region_size: 2, scroll_count: 1 };
    /// let refused = surface.add_changes(&["x".into(), scroll]);
    /// assert_eq!(refused, Err(Error::ScrollRegion));
    /// assert_eq!(surface.cursor_position(), (0, 0));
    /// # Ok::<(), Error>(())
    /// ```
    pub fn add_changes(&mut self, changes: &[Change]) -> Result<SequenceNo, Error> {
        self.add(&changes.iter().collect())
    }

    /// Makes the changes of a list, as [`Surface::add_changes`] makes those of a slice.
    ///
    /// # Errors
    ///
    /// Those of [`Surface::add_changes`].
    ///
    /// # Examples
    ///
    /// ```
    /// use tikeburo::{Changes, Error, Surface};
    ///
    /// let mut surface = Surface::new(12, 2)?;
    /// let mut changes = Changes::new();
    /// changes.title("notes").move_to(2, 1).text("hello か");
    /// assert_eq!(surface.add(&changes)?, 3);
    /// assert_eq!(surface.row(1).text()?.trim_end(), "  hello か");
    /// # Ok::<(), Error>(())
    /// ```
    pub fn add(&mut self, changes: &Changes) -> Result<SequenceNo, Error> {
        let number = self.current_seqno();
        let (list, texts) = changes.as_parts();
        self.make(list, texts)?;
        Ok(number.saturating_sub(1) + changes.len())
    }

    /// Prints a text at the cursor, as [`Change::Text`], and returns the number of that change.
    ///
    /// # Errors
    ///
    /// Those of [`Surface::add_change`].
    pub fn print(&mut self, text: &str) -> Result<SequenceNo, Error> {
        let number = self.current_seqno();
        let change = tk_change {
            kind: ffi::CHANGE_TEXT,
            first: text.len(),
            ..tk_change::default()
        };
        self.make(&[change], text)?;
        Ok(number)
    }

    /// Makes a list of changes in order, as [`Surface::add`] does, and moves the rows that they
    /// scroll off the top of the surface to the end of `lines`, the first one first. A text scrolls
    /// rows off, and a scroll up of a region that begins with row 0.
    ///
    /// # Errors
    ///
    /// Those of [`Surface::add_changes`]. No line is added then, except that after
    /// [`Error::Memory`] lines of some of these rows may have been.
    ///
    /// # Examples
    ///
    /// ```
    /// use tikeburo::{Changes, Error, Lines, RowBuffer, Surface};
    ///
    /// let mut surface = Surface::new(12, 2)?;
    /// let mut scrollback = Lines::new()?;
    /// let mut changes = Changes::new();
    /// changes.text("one\r\ntwo\r\nthree");
    /// surface.add_scrolling(&changes, &mut scrollback)?;
    /// assert_eq!(surface.row(0).text()?.trim_end(), "two");
    ///
    /// let mut line = RowBuffer::new();
    /// scrollback.read(0, &mut line)?;
    /// assert_eq!((scrollback.len(), line.text().trim_end()), (1, "one"));
    /// # Ok::<(), Error>(())
    /// ```
    pub fn add_scrolling(
        &mut self,
        changes: &Changes,
        lines: &mut Lines,
    ) -> Result<SequenceNo, Error> {
        let number = self.current_seqno();
        let (list, texts) = changes.as_parts();
        // Safety: the lines are another handle, since both are borrowed alone.
        unsafe { self.make_list(list, texts, true, lines.handle.get()) }?;
        Ok(number.saturating_sub(1) + changes.len())
    }

    fn make(&mut self, list: &[tk_change], texts: &str) -> Result<(), Error> {
        let mut none = tk_handle::none();
        // Safety: a handle of its own is no surface's.
        unsafe { self.make_list(list, texts, false, &mut none) }
    }

    // Makes a list of changes. Where lines are kept, the rows that they scroll off go to the end of
    // those lines.
    //
    // Safety: `lines` points to a handle that no other call has, and that isn't this surface's.
    unsafe fn make_list(
        &mut self,
        list: &[tk_change],
        texts: &str,
        keeps_lines: bool,
        lines: *mut tk_handle,
    ) -> Result<(), Error> {
        // Safety: this handle is live, the caller vouches for the other one, and the list and its
        // texts are only read.
        Error::check(unsafe {
            ffi::tk_add_list_distinct(
                self.handle.get(),
                list.as_ptr(),
                list.len(),
                texts.as_ptr(),
                texts.len(),
                self.keeps_changes,
                keeps_lines,
                lines,
            )
        })
    }

    /// Draws what another surface shows, a viewer or a client, from column `x` and row `y` on. What
    /// doesn't fit is left out. Cursor and pen are as before. Returns the number of the last change
    /// that this takes, as [`Surface::add_changes`] does.
    ///
    /// # Errors
    ///
    /// [`Error::OtherWidths`]: the other one measures texts by other [widths](Screen::widths), and
    /// nothing has changed. [`Error::Numbers`] and [`Error::Memory`], as of
    /// [`Surface::add_change`].
    pub fn draw_from_screen(
        &mut self,
        other: &Screen,
        x: usize,
        y: usize,
    ) -> Result<SequenceNo, Error> {
        self.draw_from(other, 0, 0, usize::MAX, usize::MAX, x, y)
    }

    /// Draws a part of another surface, a viewer or a client: what its region of this column, row,
    /// width and height shows, at another column and row. Both are cut to what fits. Cursor and pen
    /// are as before. Returns the number of the last change that this takes, as
    /// [`Surface::add_changes`] does.
    ///
    /// # Errors
    ///
    /// [`Error::OtherWidths`]: the other one measures texts by other [widths](Screen::widths), and
    /// nothing has changed. [`Error::Numbers`] and [`Error::Memory`], as of
    /// [`Surface::add_change`].
    ///
    /// ```
    /// use tikeburo::{Error, Surface};
    ///
    /// let mut list = Surface::new(6, 4)?;
    /// list.add_change("one\r\ntwo\r\nthree\r\nfour")?;
    /// let mut window = Surface::new(8, 3)?;
    /// window.draw_from(&list, 0, 1, 6, 2, 2, 0)?; // two rows of it, from the second one on
    /// assert_eq!(window.row(0).text()?, "  two   ");
    /// assert_eq!(window.row(1).text()?, "  three ");
    /// assert_eq!(window.cursor_position(), (0, 0));
    /// # Ok::<(), Error>(())
    /// ```
    #[allow(clippy::too_many_arguments)]
    pub fn draw_from(
        &mut self,
        other: &Screen,
        src_x: usize,
        src_y: usize,
        width: usize,
        height: usize,
        dest_x: usize,
        dest_y: usize,
    ) -> Result<SequenceNo, Error> {
        let number = self.current_seqno();
        let (handle, source) = (self.handle.get(), other.handle.get());
        // Safety: both handles are live, and they are two, since one is borrowed alone.
        Error::check(unsafe {
            ffi::tk_draw_from_distinct(handle, source, src_x, src_y, width, height, dest_x, dest_y)
        })?;
        Ok(self.last_since(number))
    }

    /// Draws a line on a row: the row shows what the line does, cut or with blanks after it. Where
    /// there is no such row, nothing is drawn. Cursor and pen are as before. Returns the number of
    /// the last change that this takes, as [`Surface::add_changes`] does.
    ///
    /// # Errors
    ///
    /// [`Error::Range`]: there is no line at this index. [`Error::OtherWidths`]: a cell of the line
    /// has another width than this surface measures for its text; nothing is drawn.
    /// [`Error::Numbers`] and [`Error::Memory`], as of [`Surface::add_change`].
    pub fn draw_line(
        &mut self,
        row: usize,
        lines: &Lines,
        index: usize,
    ) -> Result<SequenceNo, Error> {
        let number = self.current_seqno();
        // Safety: both handles are live, and they are two, since one is borrowed alone.
        Error::check(unsafe {
            ffi::tk_draw_line_distinct(self.handle.get(), row, lines.handle.get(), index)
        })?;
        Ok(self.last_since(number))
    }

    /// Copies what the region of this column, row, width and height shows to the region of this
    /// size at another column and row. Both are cut to what fits. Where it prints anything, the
    /// cursor is after what it printed last, and the pen is the one of that. Returns the number of
    /// the last change that this takes, as [`Surface::add_changes`] does.
    ///
    /// # Errors
    ///
    /// [`Error::Numbers`] and [`Error::Memory`], as of [`Surface::add_change`].
    pub fn copy_region(
        &mut self,
        src_x: usize,
        src_y: usize,
        width: usize,
        height: usize,
        dest_x: usize,
        dest_y: usize,
    ) -> Result<SequenceNo, Error> {
        let (handle, number) = (self.handle.get(), self.current_seqno());
        // Safety: the handle is live.
        Error::check(unsafe { ffi::tk_copy(handle, src_x, src_y, width, height, dest_x, dest_y) })?;
        Ok(self.last_since(number))
    }

    /// The number of the last change, as termwiz counts it, of those from this number on.
    fn last_since(&self, number: SequenceNo) -> SequenceNo {
        number.saturating_sub(1) + (self.current_seqno() - number)
    }

    /// Copies a region as [`Surface::copy_region`] does, and leaves cursor and pen as before.
    /// Returns the number of the last change that this takes.
    ///
    /// # Errors
    ///
    /// [`Error::Numbers`] and [`Error::Memory`], as of [`Surface::add_change`].
    pub fn draw_region(
        &mut self,
        src_x: usize,
        src_y: usize,
        width: usize,
        height: usize,
        dest_x: usize,
        dest_y: usize,
    ) -> Result<SequenceNo, Error> {
        let (handle, number) = (self.handle.get(), self.current_seqno());
        // Safety: the handle is live.
        Error::check(unsafe {
            ffi::tk_draw_region(handle, src_x, src_y, width, height, dest_x, dest_y)
        })?;
        Ok(self.last_since(number))
    }

    /// Takes another size, as [`Surface::new`] has it: rows are cut or filled with blanks, and the
    /// cursor stays inside.
    ///
    /// # Errors
    ///
    /// [`Error::Range`]: the size. [`Error::Numbers`]. [`Error::Memory`].
    pub fn resize(&mut self, width: usize, height: usize) -> Result<(), Error> {
        // Safety: the handle is live.
        Error::check(unsafe { ffi::tk_resize(self.handle.get(), width, height) })
    }

    /// What a client asks that shows all that the surface shows now. So an answer has something new
    /// for whoever asks anything else, and who asks this can wait.
    ///
    /// ```
    /// use tikeburo::{Client, Error, Surface};
    ///
    /// let mut surface = Surface::new(8, 2)?;
    /// let mut client = Client::new()?;
    /// surface.add_change("one")?;
    /// assert_ne!(client.ask()?, surface.current_ask());
    /// client.feed(&surface.respond(&client.ask()?)?)?;
    /// assert_eq!(client.ask()?, surface.current_ask());
    /// # Ok::<(), Error>(())
    /// ```
    #[must_use]
    pub fn current_ask(&self) -> Ask {
        Ask::new(self.source as u64, self.current_seqno() as u64)
    }

    /// The answer to what a client asks, as bytes for [`Client::feed`](crate::Client::feed): the
    /// whole screen, or the changes since the one that the client shows, where it shows this
    /// surface's.
    ///
    /// # Errors
    ///
    /// [`Error::Truncated`]: the bytes end before the ask does. [`Error::Unreadable`]: they are
    /// wrong at a byte, or more follow the ask.
    pub fn respond(&mut self, ask: &Ask) -> Result<Vec<u8>, Error> {
        let handle = self.handle.get();
        let ask = ask.as_bytes();
        // Room for most answers. A longer one is made once, and a second call copies it.
        let mut front = [0; 1 << 14];
        // Safety: the handle is live, the ask is only read, and the buffer has the room that is
        // named.
        handle::bytes(&mut front, |bytes, room, len| unsafe {
            ffi::tk_respond(handle, ask.as_ptr(), ask.len(), bytes, room, len)
        })
    }
}

/// The number by which viewers and clients know a surface from others, of this process and of any
/// other: 64 random bits, and not 0. Each new `RandomState` has keys of its own.
fn source_number() -> usize {
    let mut hasher = RandomState::new().build_hasher();
    hasher.write_u32(std::process::id());
    hasher.finish().max(1) as usize
}

/// What it shows.
impl Deref for Surface {
    type Target = Screen;

    fn deref(&self) -> &Screen {
        &self.screen
    }
}

/// The rows, from the top.
impl<'a> IntoIterator for &'a Surface {
    type Item = Row<'a>;
    type IntoIter = Rows<'a>;

    fn into_iter(self) -> Rows<'a> {
        self.rows()
    }
}

impl fmt::Debug for Surface {
    fn fmt(&self, f: &mut fmt::Formatter<'_>) -> fmt::Result {
        f.debug_struct("Surface")
            .field("dimensions", &self.dimensions())
            .field("cursor_position", &self.cursor_position())
            .field("current_seqno", &self.current_seqno())
            .finish_non_exhaustive()
    }
}

/// The rows, with a line feed after each, and nothing where memory is refused.
impl fmt::Display for Surface {
    fn fmt(&self, f: &mut fmt::Formatter<'_>) -> fmt::Result {
        fmt::Display::fmt(&self.screen, f)
    }
}
