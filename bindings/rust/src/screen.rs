//! What is shown, and how it is read.

use crate::attributes::{Attributes, Hyperlink};
use crate::change::{CursorShape, CursorVisibility, SequenceNo};
use crate::changes::Changes;
use crate::color::ColorAttribute;
use crate::error::Error;
use crate::ffi::{self, tk_settings};
use crate::handle::{self, Handle, WriteParam};
use crate::rows::{Row, Rows};
use crate::widths::Widths;
use std::fmt;
use std::sync::atomic::{AtomicU64, Ordering};

/// How many screens this process has made.
static MADE: AtomicU64 = AtomicU64::new(0);

/// What a surface, a viewer or a client shows: rows of cells, and the cursor.
///
/// ```
/// use tikeburo::{Screen, Surface};
///
/// fn last_row(screen: &Screen) -> Result<String, tikeburo::Error> {
///     let (_, height) = screen.dimensions();
///     screen.row(height - 1).text()
/// }
///
/// let mut surface = Surface::new(20, 2)?;
/// surface.add_change("first\r\nsecond")?;
/// assert_eq!(last_row(&surface)?.trim_end(), "second");
/// # Ok::<(), tikeburo::Error>(())
/// ```
pub struct Screen {
    pub(crate) handle: Handle,
    widths: Widths,
    /// Another one for each screen of this process.
    identity: u64,
}

impl Screen {
    /// The screen of a handle that measures texts by these widths.
    pub(crate) fn new(handle: Handle, widths: Widths) -> Screen {
        let identity = MADE.fetch_add(1, Ordering::Relaxed);
        Screen {
            handle,
            widths,
            identity,
        }
    }

    pub(crate) fn identity(&self) -> u64 {
        self.identity
    }

    /// The width in columns and the height in rows.
    #[must_use]
    pub fn dimensions(&self) -> (usize, usize) {
        self.handle.numbers(ffi::tk_size).unwrap_or_default()
    }

    /// How texts are measured. A call that takes two screens fails with [`Error::OtherWidths`] where
    /// theirs differ. Tables are equal where their ranges are.
    ///
    /// ```
    /// use tikeburo::{Error, Options, Surface, Widths};
    ///
    /// let mut surface = Surface::new(8, 1)?;
    /// let narrow = Surface::with_options(8, 1, Options::new().widths(Widths::OneColumn))?;
    /// assert_ne!(surface.widths(), narrow.widths());
    /// assert_eq!(surface.draw_from_screen(&narrow, 0, 0), Err(Error::OtherWidths));
    ///
    /// let options = Options::new().widths(surface.widths());
    /// let alike = Surface::with_options(4, 1, options)?;
    /// surface.draw_from_screen(&alike, 0, 0)?;
    /// # Ok::<(), Error>(())
    /// ```
    #[must_use]
    pub fn widths(&self) -> Widths {
        self.widths
    }

    /// The cursor's column and row. The column is the width where a wrap is pending.
    #[must_use]
    pub fn cursor_position(&self) -> (usize, usize) {
        self.handle.numbers(ffi::tk_cursor).unwrap_or_default()
    }

    /// Whether the cursor is shown.
    #[must_use]
    pub fn cursor_visibility(&self) -> CursorVisibility {
        let mut is_visible = true;
        // Safety: the handle is live, and then the call doesn't fail.
        unsafe { ffi::tk_cursor_is_visible(self.handle.get(), &mut is_visible) };
        is_visible.into()
    }

    /// The cursor's shape, which is the default one where none was set.
    #[must_use]
    pub fn cursor_shape(&self) -> CursorShape {
        self.settings().cursor_shape.try_into().unwrap_or_default()
    }

    /// The cursor's colour, which is the default one where none was set.
    #[must_use]
    pub fn cursor_color(&self) -> ColorAttribute {
        self.settings().cursor_color.into()
    }

    /// The pen: the attributes of coming texts.
    ///
    /// # Errors
    ///
    /// [`Error::Memory`].
    ///
    /// # Examples
    ///
    /// Prints a word in bold, and goes on as before:
    ///
    /// ```
    /// use tikeburo::{AttributeChange, Change, Error, Intensity, Surface};
    ///
    /// let mut surface = Surface::new(12, 1)?;
    /// surface.add_change(AttributeChange::Italic(true))?;
    /// let pen = surface.pen()?;
    /// surface.add_change(AttributeChange::Intensity(Intensity::Bold))?;
    /// surface.add_change("word")?;
    /// surface.add_change(Change::AllAttributes(pen.clone()))?;
    /// assert_eq!(surface.pen()?, pen);
    /// # Ok::<(), Error>(())
    /// ```
    pub fn pen(&self) -> Result<Attributes, Error> {
        let settings = self.settings();
        let hyperlink = if settings.has_link {
            Some(self.pen_link()?)
        } else {
            None
        };
        Ok(Attributes::new(&settings.pen, hyperlink))
    }

    fn pen_link(&self) -> Result<Hyperlink, Error> {
        let handle = self.handle.get();
        // Safety: the handle is live, and the buffer has the room that is named.
        let uri =
            handle::text(|uri, room, len| unsafe { ffi::tk_pen_link(handle, uri, room, len) })?;
        let id = handle::id(self.write_pen_param())?;
        Ok(Hyperlink::new_with_id(uri, id))
    }

    /// The params of the pen's link, each a key and a value, in the order of their keys: none where
    /// it has no link. A [`Hyperlink`] has of them the `id` alone.
    ///
    /// # Errors
    ///
    /// [`Error::Memory`].
    pub fn pen_link_params(&self) -> Result<Vec<(String, String)>, Error> {
        handle::params(self.write_pen_param())
    }

    /// The call that writes a param of the pen's link.
    fn write_pen_param(&self) -> impl WriteParam + '_ {
        let handle = self.handle.get();
        move |index, key, key_room, key_len, value, value_room, value_len| {
            // Safety: the handle is live, and the buffers have the rooms that are named.
            unsafe {
                ffi::tk_pen_link_param(
                    handle, index, key, key_room, key_len, value, value_room, value_len,
                )
            }
        }
    }

    /// The number of the coming change. A viewer and a client number the changes that they make by
    /// themselves; their numbers are not those of the surface that they show.
    #[must_use]
    pub fn current_seqno(&self) -> SequenceNo {
        self.handle.number(ffi::tk_number).unwrap_or_default()
    }

    /// Whether a change was made since this was the [number](Screen::current_seqno) of the coming
    /// one.
    #[must_use]
    pub fn has_changes(&self, number: SequenceNo) -> bool {
        self.current_seqno() != number
    }

    /// For each row from the top whether it may show something else than when the screen had this
    /// [number](Screen::current_seqno), in its cells or in how large it is shown. Each row may
    /// where that is 0.
    ///
    /// ```
    /// use tikeburo::{Client, Surface};
    ///
    /// let mut surface = Surface::new(8, 3)?;
    /// let mut client = Client::new()?;
    /// surface.add_change("one\r\ntwo")?;
    /// client.feed(&surface.respond(&client.ask()?)?)?;
    /// let (of_surface, of_client) = (surface.current_seqno(), client.current_seqno());
    ///
    /// surface.add_change("!")?;
    /// client.feed(&surface.respond(&client.ask()?)?)?;
    /// assert_eq!(surface.changed_rows(of_surface)?, [false, true, false]);
    /// assert_eq!(client.changed_rows(of_client)?, [false, true, false]);
    /// # Ok::<(), tikeburo::Error>(())
    /// ```
    ///
    /// # Errors
    ///
    /// [`Error::Memory`].
    pub fn changed_rows(&self, since: SequenceNo) -> Result<Vec<bool>, Error> {
        let handle = self.handle.get();
        // Safety: the handle is live, and the buffer has the room that is named.
        let rows = handle::bytes(&mut [0; 64], |rows, room, count| unsafe {
            ffi::tk_changed_rows(handle, since, rows, room, count)
        })?;
        Ok(rows.into_iter().map(|row| row != 0).collect())
    }

    fn settings(&self) -> tk_settings {
        let mut settings = tk_settings::default();
        // Safety: the handle is live, and then the call doesn't fail.
        unsafe { ffi::tk_state(self.handle.get(), &mut settings) };
        settings
    }

    /// The title, which is empty at first.
    ///
    /// # Errors
    ///
    /// [`Error::Memory`].
    pub fn title(&self) -> Result<String, Error> {
        let handle = self.handle.get();
        // Safety: the handle is live, and the buffer has the room that is named.
        handle::text(|text, room, len| unsafe { ffi::tk_title(handle, text, room, len) })
    }

    /// The texts of all rows, with a line feed after each. Blanks at a row's end may be left out.
    ///
    /// # Errors
    ///
    /// [`Error::Memory`].
    pub fn screen_chars_to_string(&self) -> Result<String, Error> {
        let handle = self.handle.get();
        // Safety: the handle is live, and the buffer has the room that is named.
        handle::text(|text, room, len| unsafe { ffi::tk_screen_text(handle, text, room, len) })
    }

    /// The rows, from the top.
    ///
    /// ```
    /// use tikeburo::Surface;
    ///
    /// let mut surface = Surface::new(8, 3)?;
    /// surface.add_change("one\r\ntwo")?;
    /// let mut texts = surface.rows().map(|row| row.text());
    /// assert_eq!(texts.next().unwrap()?.trim_end(), "one");
    /// # Ok::<(), tikeburo::Error>(())
    /// ```
    pub fn rows(&self) -> Rows<'_> {
        let (_, height) = self.dimensions();
        Rows::new(self, height)
    }

    /// The changes that a viewer of your own lacks which was last given the number `since`, 0 at
    /// first, and the number to ask with next. They are those since then, or changes that draw all
    /// anew on any screen of this size: where the number is 0, is no longer known, or too many
    /// changes came since.
    ///
    /// A link has its uri alone, and the pen of a [`Change::AllAttributes`](crate::Change) no link
    /// to an empty uri.
    ///
    /// ```
    /// use tikeburo::{Change, Surface};
    ///
    /// let mut surface = Surface::new(20, 1)?;
    /// let mut copy = Surface::new(20, 1)?;
    /// surface.add_change("hello")?;
    /// let (number, changes) = surface.get_changes(0)?;
    /// copy.add(&changes)?;
    /// assert_eq!(copy.to_string(), surface.to_string());
    /// surface.add_change(", world")?;
    /// let (_, changes) = surface.get_changes(number)?;
    /// assert_eq!(changes.iter().next(), Some(Change::Text(", world".into())));
    /// # Ok::<(), tikeburo::Error>(())
    /// ```
    ///
    /// # Errors
    ///
    /// [`Error::Memory`].
    pub fn get_changes(&self, since: SequenceNo) -> Result<(SequenceNo, Changes), Error> {
        let mut changes = Changes::new();
        let number = self.read_changes(since, &mut changes)?;
        Ok((number, changes))
    }

    /// As [`Screen::get_changes`], into a list that keeps its memory for the next ones. What it had
    /// is dropped.
    ///
    /// # Errors
    ///
    /// [`Error::Memory`]: the list is empty then.
    pub fn read_changes(
        &self,
        since: SequenceNo,
        changes: &mut Changes,
    ) -> Result<SequenceNo, Error> {
        changes.read(|list, room, texts, len, counts| {
            // Safety: the handle is live, and the buffers have the rooms that are named.
            unsafe { ffi::tk_get_changes(self.handle.get(), since, list, room, texts, len, counts) }
        })
    }

    /// A row by its number from 0. Its calls fail with [`Error::Range`] where there is none.
    #[must_use]
    pub fn row(&self, number: usize) -> Row<'_> {
        Row::new(self, number)
    }
}

/// The rows, from the top.
impl<'a> IntoIterator for &'a Screen {
    type Item = Row<'a>;
    type IntoIter = Rows<'a>;

    fn into_iter(self) -> Rows<'a> {
        self.rows()
    }
}

impl fmt::Debug for Screen {
    fn fmt(&self, f: &mut fmt::Formatter<'_>) -> fmt::Result {
        f.debug_struct("Screen")
            .field("dimensions", &self.dimensions())
            .field("cursor_position", &self.cursor_position())
            .finish_non_exhaustive()
    }
}

/// The rows, with a line feed after each, and nothing where memory is refused.
impl fmt::Display for Screen {
    fn fmt(&self, f: &mut fmt::Formatter<'_>) -> fmt::Result {
        let text = self.screen_chars_to_string().unwrap_or_default();
        f.write_str(&text)
    }
}
