//! The cursor.

use crate::charset::Charsets;
use tikeburo::Attributes;

/// Where and how coming texts are printed: what DECSC saves.
#[derive(Clone, Default)]
pub(crate) struct Cursor {
    /// The column, and the row.
    pub(crate) x: usize,
    pub(crate) y: usize,
    /// Whether a text has filled the row, so that the next character wraps.
    pub(crate) is_wrap_pending: bool,
    pub(crate) pen: Attributes,
    pub(crate) charsets: Charsets,
    /// Whether rows and columns are counted from the margins.
    pub(crate) has_origin_at_margins: bool,
}

impl Cursor {
    /// The column where the next character follows: the one after the edge where a wrap is
    /// pending.
    pub(crate) fn end(&self) -> usize {
        self.x + usize::from(self.is_wrap_pending)
    }

    pub(crate) fn go(&mut self, x: usize, y: usize) {
        (self.x, self.y, self.is_wrap_pending) = (x, y, false);
    }

    /// Moves into a screen of this size. A wrap stays pending where the row is still full.
    pub(crate) fn fit(&mut self, width: usize, height: usize) {
        let end = self.end();
        self.is_wrap_pending &= end >= width;
        self.x = end.min(width - 1);
        self.y = self.y.min(height - 1);
    }
}
