//! Scrolls that bring rows to where they are to be shown.

use super::line::Line;
use std::{iter, sync::Arc};

/// How many scrolls are looked for at most.
pub(super) const MOST: usize = 4;

/// What a scroll takes about, in bytes: in a region, and of all rows up to the last one.
const REGION: isize = 14;
const LINES: isize = 8;

/// What it takes to erase blanks.
const ERASE: isize = 3;

/// A scroll by this many rows of those from the top to the bottom one, which is none of them.
#[derive(Clone, Copy, PartialEq, Eq, Debug)]
pub(super) struct Scroll {
    pub top: usize,
    pub bottom: usize,
    pub count: usize,
    pub up: bool,
}

impl Scroll {
    /// Scrolls rows.
    pub fn apply(&self, lines: &mut [Arc<Line>]) {
        let lines = &mut lines[self.top..self.bottom];
        let width = lines[0].len();
        let attribute = lines[0].attribute;
        let new = if self.up {
            lines.rotate_left(self.count);
            lines.len() - self.count..lines.len()
        } else {
            lines.rotate_right(self.count);
            0..self.count
        };
        lines[new].fill(Arc::new(Line::blank(width, attribute)));
    }
}

/// Finds the scroll that saves the most, if one saves more than it takes.
pub(super) fn find(shown: &[Arc<Line>], wanted: &[Arc<Line>]) -> Option<Scroll> {
    let pairs = shown.iter().zip(wanted);
    let costs: Vec<_> = pairs.map(|(shown, wanted)| cost(wanted, shown)).collect();
    if costs.iter().sum::<isize>() <= LINES {
        return None;
    }
    if !are_any_moved(shown, wanted, &costs) {
        return None;
    }
    let search = Search {
        shown,
        wanted,
        costs,
    };
    search.best()
}

/// Whether a row that takes anything is one that is shown somewhere.
fn are_any_moved(shown: &[Arc<Line>], wanted: &[Arc<Line>], costs: &[isize]) -> bool {
    let mut costly = wanted.iter().zip(costs).filter(|(_, cost)| **cost > 0);
    costly.any(|(line, _)| shown.contains(line))
}

/// What a row takes about, in bytes: its texts that differ, and an erase of blanks.
fn cost(wanted: &Line, shown: &Line) -> isize {
    let (mut texts, mut blanks) = (0, 0);
    for (column, differs) in wanted.differing(shown).into_iter().enumerate() {
        match differs {
            true if wanted.is_blank(column) => blanks += 1,
            true => texts += 1,
            false => {}
        }
    }
    texts + ERASE.min(blanks)
}

/// The rows that are shown and those that are wanted, and what each of the wanted ones takes.
struct Search<'a> {
    shown: &'a [Arc<Line>],
    wanted: &'a [Arc<Line>],
    costs: Vec<isize>,
}

impl Search<'_> {
    /// The scroll that saves the most, if one saves anything. Only those are looked at that bring
    /// rows which take more than a scroll does.
    fn best(&self) -> Option<Scroll> {
        let counts = (1..self.shown.len()).flat_map(|count| [(count, true), (count, false)]);
        let mut counts = counts.filter(|(count, up)| self.brought(*count, *up) > LINES);
        let first = counts.next()?;
        let (blank_costs, mut best) = (self.blank_costs(), (0, None));
        for (count, up) in iter::once(first).chain(counts) {
            let (saved, scroll) = self.best_by(count, up, &blank_costs);
            if saved > best.0 {
                best = (saved, Some(scroll));
            }
        }
        best.1
    }

    /// What each of the wanted rows takes on blanks.
    fn blank_costs(&self) -> Vec<isize> {
        let blank = Line::blank(self.wanted[0].len(), self.wanted[0].attribute);
        let rows = self.wanted.iter();
        rows.map(|line| cost(line, &blank)).collect()
    }

    /// What the rows take that a scroll of all by this many would bring.
    fn brought(&self, count: usize, up: bool) -> isize {
        let (to, from) = places(count, up);
        let rows = 0..self.shown.len() - count;
        let costly = rows.filter(|row| self.costs[row + to] > 0);
        let brought = costly.filter(|row| self.is_brought(row + to, row + from));
        brought.map(|row| self.costs[row + to]).sum()
    }

    fn is_brought(&self, row: usize, from: usize) -> bool {
        self.wanted[row] == self.shown[from]
    }

    /// The scroll by this many rows that saves the most, and what it saves.
    fn best_by(&self, count: usize, up: bool, blank_costs: &[isize]) -> (isize, Scroll) {
        let height = self.shown.len();
        let (to, from) = places(count, up);
        let blanks = self.blanks_saved(count, blank_costs);
        // The rows that are moved are those from `begin` to `end`, and `sum` is what all before
        // `end` save. Blanks come in after them, or before them.
        let (mut begin, mut most_before, mut sum) = (0, isize::MIN, 0);
        let mut best = (isize::MIN, 0..0);
        for end in 1..=height - count {
            let row = end - 1;
            let before = if up { -sum } else { blanks[row] - sum };
            if before >= most_before {
                (begin, most_before) = (row, before);
            }
            sum += self.saved(row + to, row + from);
            let behind = if up { blanks[end] } else { 0 };
            let takes = if end + count < height { REGION } else { LINES };
            let saved = most_before + sum + behind - takes;
            if saved > best.0 {
                best = (saved, begin..end + count);
            }
        }
        let (saved, rows) = best;
        let scroll = Scroll {
            top: rows.start,
            bottom: rows.end,
            count,
            up,
        };
        (saved, scroll)
    }

    /// What a row saves, or else takes more, where it shows what another one did.
    fn saved(&self, row: usize, from: usize) -> isize {
        if self.is_brought(row, from) {
            self.costs[row]
        } else {
            self.costs[row] - cost(&self.wanted[row], &self.shown[from])
        }
    }

    /// For each row what is saved where this many from there on are blank: nothing, or less.
    fn blanks_saved(&self, count: usize, blank_costs: &[isize]) -> Vec<isize> {
        let pairs = self.costs.iter().zip(blank_costs);
        let saved: Vec<_> = pairs.map(|(cost, blank)| (cost - blank).min(0)).collect();
        let sums = saved.windows(count).map(|rows| rows.iter().sum());
        sums.collect()
    }
}

/// How far below the first rows those begin that are brought, and those that they come from.
fn places(count: usize, up: bool) -> (usize, usize) {
    if up {
        (0, count)
    } else {
        (count, 0)
    }
}

#[cfg(test)]
mod tests {
    use super::*;

    fn lines(letters: &str) -> Vec<Arc<Line>> {
        let line = |letter: char| Arc::new(Line::of(&letter.to_string().repeat(9)));
        letters.chars().map(line).collect()
    }

    #[test]
    fn rows_that_are_still_to_be_seen_scroll() {
        let scroll = |top, bottom, count, up| Scroll {
            top,
            bottom,
            count,
            up,
        };
        for (shown, wanted, scrolls, left) in [
            ("abcdef", "abcdef", vec![], "abcdef"),
            ("abcdef", "abcde1", vec![], "abcdef"),
            ("abcdef", "bcdef1", vec![scroll(0, 6, 1, true)], "bcdef "),
            ("abcdef", "12abcd", vec![scroll(0, 6, 2, false)], "  abcd"),
            ("abcdef", "acde1f", vec![scroll(1, 5, 1, true)], "acde f"),
            ("abcdef", "a1bcdf", vec![scroll(1, 5, 1, false)], "a bcdf"),
            ("abcdef", "123456", vec![], "abcdef"),
            // One row saves less than a scroll takes.
            ("abcdef", "b1cdef", vec![], "abcdef"),
            (
                "abcdefghijkl",
                "bcdef1hijkl2",
                vec![scroll(0, 12, 1, true)],
                "bcdefghijkl ",
            ),
            (
                "abcdefghijkl",
                "bcdef1 ghijk",
                // Each goes up to the last row, so that none needs a region.
                vec![scroll(0, 12, 1, true), scroll(5, 12, 2, false)],
                "bcdef  ghijk",
            ),
        ] {
            let mut now = lines(shown);
            let mut found = Vec::new();
            while let Some(scroll) = find(&now, &lines(wanted)) {
                scroll.apply(&mut now);
                found.push(scroll);
            }
            assert_eq!(found, scrolls, "{shown} {wanted}");
            assert!(now == lines(left), "{shown} {wanted}");
        }
    }
}
