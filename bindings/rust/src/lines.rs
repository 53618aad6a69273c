//! Lists of lines.

use crate::error::Error;
use crate::ffi;
use crate::handle::Handle;
use crate::rows::RowBuffer;
use crate::screen::Screen;
use std::fmt;
use std::ops::Range;

/// Rows that are kept, the oldest one first, as a terminal's scrollback: lines that no surface need
/// show any longer.
///
/// ```
/// use tikeburo::{Lines, RowBuffer, Surface};
///
/// let mut surface = Surface::new(20, 2)?;
/// let mut lines = Lines::new()?;
/// surface.add_change("first\r\nsecond")?;
/// lines.push_row(&surface, 0)?; // before it scrolls off
/// surface.add_change("\r\nthird")?;
/// lines.compress(0..1)?;
///
/// let mut line = RowBuffer::new();
/// lines.read(0, &mut line)?;
/// assert_eq!(line.text().trim_end(), "first");
/// # Ok::<(), tikeburo::Error>(())
/// ```
pub struct Lines {
    pub(crate) handle: Handle,
}

impl Lines {
    /// A list of no lines.
    ///
    /// # Errors
    ///
    /// [`Error::Memory`].
    pub fn new() -> Result<Lines, Error> {
        // Safety: the handle is all zero before.
        let handle = Handle::made(|handle| unsafe { ffi::tk_lines_new(handle) })?;
        Ok(Lines { handle })
    }

    /// How many lines there are.
    #[must_use]
    pub fn len(&self) -> usize {
        self.handle.number(ffi::tk_lines_count).unwrap_or_default()
    }

    /// Whether there are no lines.
    #[must_use]
    pub fn is_empty(&self) -> bool {
        self.len() == 0
    }

    /// Appends a copy of a row, as it is stored: blanks at its end may be left out.
    ///
    /// # Errors
    ///
    /// [`Error::Range`]: the screen has no such row. [`Error::Memory`].
    pub fn push_row(&mut self, screen: &Screen, row: usize) -> Result<(), Error> {
        // Safety: both handles are live, and they are two, since one is borrowed alone.
        Error::check(unsafe {
            ffi::tk_lines_push_row_distinct(self.handle.get(), screen.handle.get(), row)
        })
    }

    /// Removes the first lines, which are the oldest. The memory of as many as there are lines left
    /// is kept, for rows that scroll in at [`Surface::add_scrolling`].
    ///
    /// [`Surface::add_scrolling`]: crate::Surface::add_scrolling
    ///
    /// # Errors
    ///
    /// [`Error::Range`]: there are not this many.
    pub fn remove_first(&mut self, count: usize) -> Result<(), Error> {
        self.remove(0..count)
    }

    /// Removes the lines of this range.
    ///
    /// # Errors
    ///
    /// [`Error::Range`]: they are not all there.
    pub fn remove(&mut self, range: Range<usize>) -> Result<(), Error> {
        // Safety: the handle is live.
        Error::check(unsafe { ffi::tk_lines_remove(self.handle.get(), range.start, range.len()) })
    }

    /// Reads a line's cells by one call of the library, as [`Row::read`] reads those of a row, into
    /// a buffer that keeps its memory for the next lines.
    ///
    /// The links of its cells can't be read: draw the line on a surface for them.
    ///
    /// # Errors
    ///
    /// [`Error::Range`]: there is no line at this index. [`Error::Memory`]. The buffer is empty
    /// then.
    ///
    /// [`Row::read`]: crate::Row::read
    pub fn read(&self, index: usize, buffer: &mut RowBuffer) -> Result<(), Error> {
        buffer.fill(self.handle.get(), index, ffi::tk_line_cells)
    }

    /// Stores the lines of this range in less memory. What they show is as before.
    ///
    /// # Errors
    ///
    /// [`Error::Range`]: they are not all there. [`Error::Memory`]: some of them may be compressed.
    pub fn compress(&mut self, range: Range<usize>) -> Result<(), Error> {
        // Safety: the handle is live.
        Error::check(unsafe { ffi::tk_lines_compress(self.handle.get(), range.start, range.len()) })
    }

    /// Wraps each line into lines of at most this many columns, which come in its place: the spaces
    /// at its end are dropped, and the last cell of each of its lines but the last one is marked as
    /// wrapped. A line has at least one cell, also where that has more columns. A line of spaces
    /// alone stays as it is. The new lines are not compressed.
    ///
    /// ```
    /// use tikeburo::{Lines, Surface};
    ///
    /// let mut surface = Surface::new(20, 1)?;
    /// surface.add_change("one two three")?;
    /// let mut lines = Lines::new()?;
    /// lines.push_row(&surface, 0)?;
    /// lines.wrap(8)?;
    /// assert_eq!(lines.len(), 2);
    ///
    /// let mut narrow = Surface::new(8, 2)?;
    /// narrow.draw_line(0, &lines, 0)?;
    /// narrow.draw_line(1, &lines, 1)?;
    /// assert_eq!(narrow.row(0).text()?, "one two ");
    /// assert_eq!(narrow.row(1).text()?.trim_end(), "three");
    /// # Ok::<(), tikeburo::Error>(())
    /// ```
    ///
    /// # Errors
    ///
    /// [`Error::Memory`].
    pub fn wrap(&mut self, width: usize) -> Result<(), Error> {
        // Safety: the handle is live.
        Error::check(unsafe { ffi::tk_lines_wrap(self.handle.get(), width) })
    }
}

impl fmt::Debug for Lines {
    fn fmt(&self, f: &mut fmt::Formatter<'_>) -> fmt::Result {
        f.debug_struct("Lines")
            .field("len", &self.len())
            .finish_non_exhaustive()
    }
}
