//! What one screen lacks of another.

use crate::changes::Changes;
use crate::error::Error;
use crate::ffi;
use crate::screen::Screen;
use crate::viewer::Viewer;
use std::ptr;

impl Screen {
    /// The changes that turn what this screen shows into what another one shows, which are moves,
    /// pens and texts alone: they print each cell that differs once. There are none where the rows
    /// are equal. Where the sizes differ, what fits in both is compared. Cursor, title, and what
    /// else is set beside the rows, are not compared.
    ///
    /// Made by a surface that shows what this screen does, and measures texts as it does, they give
    /// it the other one's rows. A link has its uri alone.
    ///
    /// ```
    /// use tikeburo::{Change, Error, Surface};
    ///
    /// let mut shown = Surface::new(20, 1)?;
    /// let mut next = Surface::new(20, 1)?;
    /// shown.add_change("hello, world")?;
    /// next.add_change("hello, there")?;
    /// let changes = shown.diff_screens(&next)?;
    /// assert_eq!(changes.iter().last(), Some(Change::Text("there".into())));
    /// shown.add(&changes)?;
    /// assert!(shown.diff_screens(&next)?.is_empty());
    /// # Ok::<(), Error>(())
    /// ```
    ///
    /// # Errors
    ///
    /// [`Error::OtherWidths`]: the two measure texts by different [widths](Screen::widths).
    /// [`Error::Memory`].
    pub fn diff_screens(&self, other: &Screen) -> Result<Changes, Error> {
        if ptr::eq(self, other) {
            return Ok(Changes::new());
        }
        let (handle, other) = (self.handle.get(), other.handle.get());
        let mut changes = Changes::new();
        changes.read(|list, room, texts, len, counts| {
            // Safety: both handles are live, and they are two, and the buffers have the rooms that
            // are named.
            unsafe { ffi::tk_diff_screens_distinct(handle, other, list, room, texts, len, counts) }
        })?;
        Ok(changes)
    }

    /// As [`Screen::diff_screens`], of the region of this screen from column `x` and row `y` on,
    /// and of the region of another one, or of this one too, from `other_x` and `other_y` on. Both
    /// have `width` columns and `height` rows, and are cut to what fits in both screens. Where one
    /// begins outside, there are no changes. A wide grapheme that crosses an edge of its region is
    /// printed whole.
    ///
    /// # Errors
    ///
    /// Those of [`Screen::diff_screens`].
    #[allow(clippy::too_many_arguments)]
    pub fn diff_region(
        &self,
        x: usize,
        y: usize,
        width: usize,
        height: usize,
        other: &Screen,
        other_x: usize,
        other_y: usize,
    ) -> Result<Changes, Error> {
        if ptr::eq(self, other) {
            // The library takes two handles.
            let mut copy = Viewer::new(other)?;
            copy.follow(other)?;
            return self.diff_region(x, y, width, height, copy.screen(), other_x, other_y);
        }
        let (handle, other) = (self.handle.get(), other.handle.get());
        let mut changes = Changes::new();
        changes.read(|list, room, texts, len, counts| {
            // Safety: both handles are live, and they are two, and the buffers have the rooms that
            // are named.
            unsafe {
                ffi::tk_diff_region_distinct(
                    handle, x, y, width, height, other, other_x, other_y, list, room, texts, len,
                    counts,
                )
            }
        })?;
        Ok(changes)
    }
}
