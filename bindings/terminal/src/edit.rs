//! What clears and moves cells and rows.

use crate::emulator::Emulator;
use std::ops::Range;
use tikeburo::Attributes;

/// What is cleared of a row or a screen.
#[derive(Clone, Copy)]
pub(crate) enum Part {
    FromCursor,
    ToCursor,
    All,
}

impl Part {
    /// The part that a parameter names.
    pub(crate) fn new(number: usize) -> Option<Part> {
        [Part::FromCursor, Part::ToCursor, Part::All]
            .get(number)
            .copied()
    }
}

impl Emulator {
    /// Clears these columns of a row, to the background of the pen.
    pub(crate) fn erase(&mut self, y: usize, columns: Range<usize>) {
        self.settle();
        let background = self.background();
        self.batch.erase(y, columns, self.width, background);
    }

    /// Clears a part of the cursor's row.
    pub(crate) fn erase_in_row(&mut self, part: Part) {
        let (x, width) = (self.cursor.x, self.width);
        let columns = match part {
            Part::FromCursor => x..width,
            Part::ToCursor => 0..x + 1,
            Part::All => 0..width,
        };
        self.erase(self.cursor.y, columns);
    }

    /// Clears a part of the screen.
    pub(crate) fn erase_in_screen(&mut self, part: Part) {
        let (x, y) = (self.cursor.x, self.cursor.y);
        match part {
            Part::ToCursor => {
                (0..y).for_each(|y| self.erase(y, 0..self.width));
                self.erase_in_row(part);
            }
            Part::FromCursor if (x, y) != (0, 0) => self.erase_below(x, y),
            Part::FromCursor | Part::All => self.erase_screen(),
        }
    }

    /// Clears the screen. Unless rows are kept, nothing of the changes before is left, and they are
    /// dropped.
    fn erase_screen(&mut self) {
        if !self.keeps_rows() {
            self.shift = None;
            self.batch.drop_all();
        }
        self.erase_below(0, 0);
    }

    /// Clears from a place to the end of the screen.
    fn erase_below(&mut self, x: usize, y: usize) {
        self.settle();
        let background = self.background();
        self.batch.erase_below(x, y, background);
    }

    /// Clears `count` columns from the cursor on.
    pub(crate) fn erase_columns(&mut self, count: usize) {
        let x = self.cursor.x;
        self.erase(self.cursor.y, x..self.width.min(x + count));
    }

    /// Copies the cells of a region of this size to another place.
    pub(crate) fn draw_region(
        &mut self,
        from: (usize, usize),
        size: (usize, usize),
        to: (usize, usize),
    ) {
        self.make();
        let drawn = self
            .surface
            .draw_region(from.0, from.1, size.0, size.1, to.0, to.1);
        self.attempt(drawn.map(drop));
    }

    /// Inserts or deletes rows at the cursor, within the margins, and goes to the left margin.
    pub(crate) fn shift_rows(&mut self, count: usize, is_delete: bool) {
        if self.rows.contains(&self.cursor.y) && self.is_between_margins() {
            self.scroll(self.cursor.y..self.rows.end, count, is_delete);
            self.cursor.go(self.columns.start, self.cursor.y);
        }
    }

    /// Scrolls rows, between the margins at the left and the right. Those that scroll in have the
    /// background of the pen.
    pub(crate) fn scroll(&mut self, rows: Range<usize>, count: usize, is_up: bool) {
        self.settle();
        let count = count.min(rows.len());
        let new = if is_up {
            rows.end - count..rows.end
        } else {
            rows.start..rows.start + count
        };
        if self.columns.len() < self.width {
            self.scroll_columns(rows, count, is_up);
        } else {
            self.batch.scroll(rows, count, is_up);
            if self.background() == Default::default() {
                return;
            }
        }
        new.for_each(|y| self.erase(y, self.columns.clone()));
    }

    /// Moves the rows that stay, in the columns between the margins.
    fn scroll_columns(&mut self, rows: Range<usize>, count: usize, is_up: bool) {
        let (x, size) = (self.columns.start, (self.columns.len(), rows.len() - count));
        let (from, to) = (rows.start + count, rows.start);
        let (from, to) = if is_up { (from, to) } else { (to, from) };
        if size.1 > 0 {
            self.draw_region((x, from), size, (x, to));
        }
    }

    /// Fills the screen with `E`, and goes home. The margins are those of the whole screen then.
    pub(crate) fn fill_screen(&mut self) {
        self.settle();
        (self.rows, self.columns) = (0..self.height, 0..self.width);
        self.cursor.has_origin_at_margins = false;
        let row = "E".repeat(self.width);
        self.batch.change_pen();
        for y in 0..self.height {
            self.batch.move_to(0, y);
            self.batch
                .print(&row, &Attributes::default(), (self.width, y), true);
            self.make_if_full();
        }
        self.batch.change_pen();
        self.cursor.go(0, 0);
    }
}
