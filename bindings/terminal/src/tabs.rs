//! Tab stops.

const DISTANCE: usize = 8;

/// The columns where tabs stop: every eighth one, until a program sets others.
#[derive(Clone)]
pub(crate) struct Tabs {
    stops: Vec<bool>,
}

impl Tabs {
    pub(crate) fn new(width: usize) -> Tabs {
        let mut tabs = Tabs { stops: Vec::new() };
        tabs.resize(width);
        tabs
    }

    /// Takes another width. New columns have the usual stops.
    pub(crate) fn resize(&mut self, width: usize) {
        let usual = (self.stops.len()..width).map(|column| column % DISTANCE == 0);
        self.stops.extend(usual);
        self.stops.truncate(width);
    }

    /// Sets or clears the stop at a column.
    pub(crate) fn set(&mut self, column: usize, is_stop: bool) {
        self.stops[column] = is_stop;
    }

    /// Clears all stops.
    pub(crate) fn clear(&mut self) {
        self.stops.fill(false);
    }

    /// The next stop after a column, or else the last column.
    pub(crate) fn next(&self, column: usize) -> usize {
        let last = self.stops.len() - 1;
        let mut behind = column + 1..last;
        behind.find(|at| self.stops[*at]).unwrap_or(last)
    }

    /// The last stop before a column, or else the first column.
    pub(crate) fn previous(&self, column: usize) -> usize {
        let before = self.stops[..column].iter();
        before
            .rev()
            .position(|it| *it)
            .map_or(0, |at| column - 1 - at)
    }
}

#[cfg(test)]
mod tests {
    use super::*;

    #[test]
    fn tabs_stop_at_each_eighth_column_or_where_stops_are_set() {
        let mut tabs = Tabs::new(20);
        assert_eq!(
            [0, 7, 8, 16, 19].map(|at| tabs.next(at)),
            [8, 8, 16, 19, 19]
        );
        assert_eq!(
            [0, 7, 8, 9, 19].map(|at| tabs.previous(at)),
            [0, 0, 0, 8, 16]
        );
        tabs.clear();
        tabs.set(3, true);
        assert_eq!([tabs.next(0), tabs.next(3), tabs.previous(19)], [3, 19, 3]);
        tabs.resize(30);
        assert_eq!([tabs.next(3), tabs.next(24)], [24, 29]);
    }
}
