//! Moves of the cursor.

use crate::emulator::Emulator;
use tikeburo::ColorAttribute;

const LINE_FEED: &str = "\n";
const LINE_END: &str = "\r\n";

impl Emulator {
    /// Goes to a column and a row, clamped to the screen.
    pub(crate) fn go(&mut self, x: usize, y: usize) {
        self.cursor
            .go(x.min(self.width - 1), y.min(self.height - 1));
    }

    /// Goes to a column and a row as a program counts them, from 0. In origin mode they are counted
    /// from the margins, and clamped to them.
    pub(crate) fn go_from_origin(&mut self, x: usize, y: usize) {
        if !self.cursor.has_origin_at_margins {
            return self.go(x, y);
        }
        let x = self.columns.start + x;
        let y = self.rows.start + y;
        self.cursor
            .go(x.min(self.columns.end - 1), y.min(self.rows.end - 1));
    }

    /// Goes to a column as a program counts them.
    pub(crate) fn go_to_column(&mut self, x: usize) {
        let y = self.cursor.y;
        self.go_from_origin(x, 0);
        self.cursor.y = y;
    }

    /// Goes to a row as a program counts them.
    pub(crate) fn go_to_row(&mut self, y: usize) {
        let x = self.cursor.x;
        self.go_from_origin(0, y);
        self.cursor.x = x;
    }

    /// Goes up, at most to the margin.
    pub(crate) fn move_up(&mut self, count: usize) {
        let y = self.cursor.y;
        let top = if y < self.rows.start {
            0
        } else {
            self.rows.start
        };
        self.go(self.cursor.x, y.saturating_sub(count).max(top));
    }

    /// Goes down, at most to the margin.
    pub(crate) fn move_down(&mut self, count: usize) {
        let y = self.cursor.y;
        let end = if y < self.rows.end {
            self.rows.end
        } else {
            self.height
        };
        self.go(self.cursor.x, (y + count).min(end - 1));
    }

    /// Goes to the right, at most to the margin.
    pub(crate) fn move_forward(&mut self, count: usize) {
        let last = self.right_edge() - 1;
        self.go((self.cursor.x + count).min(last), self.cursor.y);
    }

    /// Goes to the left, at most to the margin.
    pub(crate) fn move_back(&mut self, count: usize) {
        let x = self.cursor.x;
        self.go(x.saturating_sub(count).max(self.left_edge()), self.cursor.y);
    }

    /// Goes to the first column, or to the margin.
    pub(crate) fn return_carriage(&mut self) {
        self.go(self.left_edge(), self.cursor.y);
    }

    /// The first column that moves to the left reach from the cursor.
    fn left_edge(&self) -> usize {
        let is_before = self.cursor.x < self.columns.start;
        if is_before {
            0
        } else {
            self.columns.start
        }
    }

    /// The column after the last one that texts and moves to the right reach from the cursor.
    pub(crate) fn right_edge(&self) -> usize {
        let is_behind = self.cursor.x >= self.columns.end;
        if is_behind {
            self.width
        } else {
            self.columns.end
        }
    }

    /// Whether the cursor is between the margins at the left and the right.
    pub(crate) fn is_between_margins(&self) -> bool {
        self.columns.contains(&self.cursor.x)
    }

    /// Goes to the first column of the next row, as CR LF does.
    pub(crate) fn end_line(&mut self) {
        self.last.is_live = false;
        self.return_carriage();
        self.feed_line();
    }

    /// Goes to the next row. At the margin the rows scroll. A pending wrap stays.
    ///
    /// Where a line feed in a text does the same on the surface, it is appended to the text.
    pub(crate) fn feed_line(&mut self) {
        let (x, y) = (self.surface_column(), self.cursor.y);
        let below = (y + 1).min(self.height - 1);
        let is_alike = self.feeds_alike(1);
        self.settle();
        if is_alike && below == y {
            self.put_cursor_for_line_end(x, y);
        }
        if is_alike && self.batch.is_at(x, y) {
            self.batch.end_line(LINE_FEED, (x, below));
        } else if is_alike && x == 0 && self.batch.is_in_row(y) {
            self.batch.end_line(LINE_END, (x, below));
        } else if y + 1 == self.rows.end {
            if self.is_between_margins() {
                self.scroll(self.rows.clone(), 1, true);
            }
            return;
        }
        if is_alike && below == y {
            self.note_scroll(1);
        }
        self.cursor.y = below;
    }

    /// Moves the surface's cursor to the row where a line end scrolls.
    fn put_cursor_for_line_end(&mut self, x: usize, y: usize) {
        let is_near = x == 0 && self.batch.is_in_row(y);
        if !is_near {
            self.batch.move_to(x, y);
        }
    }

    /// Notes that texts have scrolled rows off the whole screen.
    #[inline]
    pub(crate) fn note_scroll(&mut self, count: usize) {
        if count > 0 && !self.keeps_rows() {
            self.batch.scroll_off(count);
        }
    }

    /// Goes to the row above. At the margin the rows scroll. A pending wrap stays.
    pub(crate) fn feed_line_back(&mut self) {
        if self.cursor.y != self.rows.start {
            self.cursor.y = self.cursor.y.saturating_sub(1);
        } else if self.is_between_margins() {
            self.scroll(self.rows.clone(), 1, false);
        }
    }

    /// Whether `count` line feeds do the same on the surface, which has no margins, and where rows
    /// scroll in without a background.
    pub(crate) fn feeds_alike(&self, count: usize) -> bool {
        let y = self.cursor.y;
        let end = if y < self.rows.end {
            self.rows.end
        } else {
            self.height
        };
        let has_no_margins = self.rows.len() == self.height && self.columns.len() == self.width;
        let scrolls_alike = has_no_margins && self.background() == ColorAttribute::Default;
        y + count < end || scrolls_alike
    }

    /// Leaves a wrap pending only at the edge that texts reach from the cursor: the margins may have
    /// changed since the row was filled.
    pub(crate) fn fit_wrap(&mut self) {
        self.cursor.is_wrap_pending &= self.cursor.end() == self.right_edge();
    }

    /// Sets the rows between the margins, counted from 1 to the last one, or 0 for all.
    pub(crate) fn set_row_margins(&mut self, first: usize, last: usize) {
        if let Some(rows) = margins(first, last, self.height) {
            self.rows = rows;
            self.go_from_origin(0, 0);
        }
    }

    /// Sets the columns between the margins.
    pub(crate) fn set_column_margins(&mut self, first: usize, last: usize) {
        if let Some(columns) = margins(first, last, self.width) {
            self.columns = columns;
            self.go_from_origin(0, 0);
        }
    }

    /// Goes `count` tab stops forward or back. A pending wrap stays where it goes forward.
    pub(crate) fn move_to_tab(&mut self, count: usize, is_forward: bool) {
        if is_forward && self.cursor.is_wrap_pending {
            return;
        }
        let mut x = self.cursor.x;
        for _ in 0..count.min(self.width) {
            x = if is_forward {
                self.tabs.next(x)
            } else {
                self.tabs.previous(x)
            };
        }
        self.go(x.min(self.right_edge() - 1), self.cursor.y);
    }
}

/// The range of these margins, which have two places at least of `count`.
fn margins(first: usize, last: usize, count: usize) -> Option<std::ops::Range<usize>> {
    let start = first.max(1) - 1;
    let end = if last == 0 { count } else { last.min(count) };
    (start + 1 < end).then_some(start..end)
}
