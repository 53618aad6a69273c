//! Cells that are inserted and deleted in a row.

use crate::emulator::Emulator;
use std::ops::Range;
use tikeburo::{Attributes, ColorAttribute};

/// Insertions and deletions at one place of a row, which are made at once. From the place to the
/// right edge they leave inserted blanks, the cells that are kept, and blanks again.
pub(crate) struct Shift {
    x: usize,
    y: usize,
    right: usize,
    inserted: usize,
    kept: Range<usize>,
    background: ColorAttribute,
}

impl Shift {
    fn new(x: usize, y: usize, right: usize, background: ColorAttribute) -> Shift {
        Shift {
            x,
            y,
            right,
            inserted: 0,
            kept: x..right,
            background,
        }
    }

    /// Whether both are at one place, and leave the same blanks.
    fn is_like(&self, other: &Shift) -> bool {
        (self.x, self.y, self.right) == (other.x, other.y, other.right)
            && self.background == other.background
    }

    fn room(&self) -> usize {
        self.right - self.x
    }

    fn insert(&mut self, count: usize) {
        self.inserted = self.room().min(self.inserted + count);
        let left = self.room() - self.inserted;
        self.kept.end = self.kept.end.min(self.kept.start + left);
    }

    fn delete(&mut self, count: usize) {
        let inserted = self.inserted.min(count);
        self.inserted -= inserted;
        self.kept.start = self.kept.end.min(self.kept.start + (count - inserted));
    }
}

impl Emulator {
    /// Inserts `count` blanks at the cursor, and moves the cells after them to the right.
    pub(crate) fn insert_columns(&mut self, count: usize) {
        if let Some(shift) = self.shift_here() {
            shift.insert(count);
        }
    }

    /// Deletes `count` columns at the cursor, and moves the cells after them there.
    pub(crate) fn delete_columns(&mut self, count: usize) {
        if let Some(shift) = self.shift_here() {
            shift.delete(count);
        }
    }

    /// The insertions and deletions at the cursor, or nothing where that is outside of the margins.
    fn shift_here(&mut self) -> Option<&mut Shift> {
        if !self.is_between_margins() {
            return None;
        }
        let new = Shift::new(
            self.cursor.x,
            self.cursor.y,
            self.right_edge(),
            self.background(),
        );
        if !self.shift.as_ref().map_or(false, |it| it.is_like(&new)) {
            self.settle();
        }
        Some(self.shift.get_or_insert(new))
    }

    /// Makes pending insertions and deletions, before other cells are changed.
    #[inline]
    pub(crate) fn settle(&mut self) {
        if let Some(shift) = self.shift.take() {
            self.make_shift(&shift);
        }
    }

    /// Moves the cells that are kept, and clears the columns beside them.
    fn make_shift(&mut self, shift: &Shift) {
        self.make();
        let Shift { x, y, right, .. } = *shift;
        let (begin, kept) = (x + shift.inserted, shift.kept.clone());
        let end = begin + kept.len();
        let first = self.cut_cell(kept.start.checked_sub(1), y);
        let last = self.cut_cell(kept.end.checked_sub(1).filter(|_| !kept.is_empty()), y);
        let whole =
            kept.start + usize::from(first.is_some())..kept.end - usize::from(last.is_some());
        if begin != kept.start && !whole.is_empty() {
            let to = begin + whole.start - kept.start;
            self.draw_region((whole.start, y), (whole.len(), 1), (to, y));
        }
        let first = first.filter(|_| !kept.is_empty()).map(|pen| (begin, pen));
        let last = last.map(|pen| (end - 1, pen));
        for (column, pen) in first.into_iter().chain(last) {
            self.print_at((column, y), " ", 1, &pen);
        }
        for columns in [x..begin, end..right] {
            self.batch.erase(y, columns, self.width, shift.background);
        }
    }

    /// The attributes of the cell of two columns that begins at a column, if there is one: its
    /// columns are separated, and become blanks.
    fn cut_cell(&mut self, column: Option<usize>, y: usize) -> Option<Attributes> {
        match self.surface.row(y).cell(column?) {
            Ok(cell) if cell.width() == 2 => Some(cell.attrs().clone()),
            Ok(_) => None,
            Err(error) => {
                self.attempt(Err(error));
                None
            }
        }
    }

    /// Prints a text at a place. The cursor stays.
    pub(crate) fn print_at(
        &mut self,
        (x, y): (usize, usize),
        text: &str,
        columns: usize,
        pen: &Attributes,
    ) {
        self.batch.move_to(x, y);
        self.batch.change_pen();
        self.batch.print(text, pen, (x + columns, y), false);
        self.batch.change_pen();
    }
}

#[cfg(test)]
mod tests {
    use super::*;

    #[test]
    fn insertions_and_deletions_add_up() {
        let mut shift = Shift::new(2, 0, 10, ColorAttribute::Default);
        shift.insert(1);
        shift.insert(2);
        assert_eq!((shift.inserted, shift.kept.clone()), (3, 2..7));
        shift.delete(1); // of the blanks
        assert_eq!((shift.inserted, shift.kept.clone()), (2, 2..7));
        shift.delete(4);
        assert_eq!((shift.inserted, shift.kept.clone()), (0, 4..7));
        shift.insert(4);
        assert_eq!((shift.inserted, shift.kept.clone()), (4, 4..7));
        shift.insert(65535);
        assert_eq!((shift.inserted, shift.kept.len()), (8, 0));
        shift.delete(65535);
        assert_eq!((shift.inserted, shift.kept.len()), (0, 0));
    }
}
