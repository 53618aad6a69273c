//! What is written to a row more than once before it is shown.

use std::ops::Range;

/// How many rows are remembered: those that were written last.
const MOST_ROWS: usize = 32;

/// The changes that write to one row alone, from a column on, and begin with a move.
struct Segment {
    x: usize,
    y: usize,
    begin: usize,
    /// Whether the pen is the default one where it begins.
    begins_plain: bool,
}

/// A segment that later ones may undo: as it begins and ends with the default pen, and a move
/// follows it, the changes after it don't depend on it.
struct Written {
    x: usize,
    y: usize,
    changes: Range<usize>,
}

/// The segments of a list of changes, and those of them whose cells later ones write anew.
#[derive(Default)]
pub(crate) struct Segments {
    current: Option<Segment>,
    written: Vec<Written>,
    undone: Vec<Range<usize>>,
}

impl Segments {
    /// Begins a segment at a place, with the move of this index, which ends the one before.
    pub(crate) fn begin(&mut self, (x, y): (usize, usize), begin: usize, is_plain: bool) {
        self.end(begin, is_plain);
        self.current = Some(Segment {
            x,
            y,
            begin,
            begins_plain: is_plain,
        });
    }

    fn end(&mut self, end: usize, is_plain: bool) {
        let Some(Segment {
            x,
            y,
            begin,
            begins_plain,
        }) = self.current.take()
        else {
            return;
        };
        if begins_plain && is_plain {
            self.written.retain(|written| written.y != y);
            if self.written.len() == MOST_ROWS {
                self.written.remove(0);
            }
            let changes = begin..end;
            self.written.push(Written { x, y, changes });
        }
    }

    /// Forgets the segment that has begun: what follows depends on it, or writes to other rows.
    pub(crate) fn leave(&mut self) {
        self.current = None;
    }

    /// Notes that the segment clears its row to the end, and so writes all cells from its begin on.
    pub(crate) fn clear_row(&mut self) {
        let Some(current) = &self.current else {
            return;
        };
        let is_undone = |old: &Written| old.y == current.y && old.x >= current.x;
        if let Some(at) = self.written.iter().position(is_undone) {
            self.undone.push(self.written.remove(at).changes);
        }
    }

    /// Forgets what these rows have: they are moved.
    pub(crate) fn scroll(&mut self, rows: &Range<usize>) {
        self.current = None;
        self.written.retain(|written| !rows.contains(&written.y));
    }

    /// Forgets what all rows have.
    pub(crate) fn scroll_all(&mut self) {
        self.current = None;
        self.written.clear();
    }

    /// Forgets all: the list is empty.
    pub(crate) fn clear(&mut self) {
        self.scroll_all();
        self.undone.clear();
    }

    /// The ranges of changes that are to be dropped, in order: the first `count` ones, and those
    /// after them that others undo.
    pub(crate) fn undone(&mut self, count: usize) -> &[Range<usize>] {
        self.undone.retain(|range| range.start >= count);
        if count > 0 {
            self.undone.push(0..count);
        }
        self.undone.sort_unstable_by_key(|range| range.start);
        &self.undone
    }
}

#[cfg(test)]
mod tests {
    use super::*;

    /// Segments of 3 changes each, at these places, of which each clears its row.
    fn undone(places: &[(usize, usize)]) -> Vec<Range<usize>> {
        let mut segments = Segments::default();
        for (number, place) in places.iter().enumerate() {
            segments.begin(*place, 3 * number, true);
            segments.clear_row();
        }
        segments.undone(0).to_vec()
    }

    #[test]
    fn what_is_written_anew_is_undone() {
        assert_eq!(undone(&[(0, 1), (0, 1), (0, 1)]), [0..3, 3..6]);
        assert_eq!(undone(&[(5, 1), (0, 2), (5, 1), (0, 2)]), [0..3, 3..6]);
        assert_eq!(
            undone(&[(5, 1), (0, 2), (0, 1), (2, 2), (0, 2)]),
            [0..3, 9..12]
        );
        assert_eq!(undone(&[(0, 1), (5, 1)]), []);
    }

    #[test]
    fn what_others_depend_on_stays() {
        let mut segments = Segments::default();
        segments.begin((0, 1), 0, false); // with another pen
        segments.begin((0, 1), 3, true);
        segments.clear_row();
        segments.begin((0, 2), 6, true);
        segments.scroll(&(2..4));
        segments.begin((0, 2), 9, true);
        segments.clear_row();
        segments.leave();
        segments.begin((0, 1), 12, true);
        assert_eq!(segments.undone(0), []);
        segments.clear_row();
        assert_eq!(segments.undone(2), [0..2, 3..6]);
    }
}
