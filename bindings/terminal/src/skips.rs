//! Rows that scroll off before they are shown.

/// After how many rows changes begin anew.
const DISTANCE: usize = 4;

/// Where in a list changes begin that need neither the place nor the pen of those before them. Once
/// the whole screen has scrolled since one of them, all that those print is gone.
#[derive(Default)]
pub(crate) struct Skips {
    /// How many rows have scrolled off, one after the other, and nothing else has moved any.
    scrolled: usize,
    begins: Vec<Begin>,
}

struct Begin {
    changes: usize,
    scrolled: usize,
}

impl Skips {
    /// Notes rows that this many changes leave scrolled off. Returns whether the next ones are to
    /// begin anew.
    pub(crate) fn scroll(&mut self, count: usize, changes: usize) -> bool {
        self.scrolled += count;
        let last = self.begins.last().map_or(0, |begin| begin.scrolled);
        let is_far = self.scrolled - last >= DISTANCE;
        if is_far {
            let scrolled = self.scrolled;
            self.begins.push(Begin { changes, scrolled });
        }
        is_far
    }

    /// Forgets all: the list is empty, or moves rows in another way.
    pub(crate) fn clear(&mut self) {
        self.scrolled = 0;
        self.begins.clear();
    }

    /// How many changes at the beginning of the list print nothing that a screen of this height
    /// still has.
    pub(crate) fn count(&self, height: usize) -> usize {
        let mut lasts = self.begins.iter().rev();
        let gone = lasts.find(|begin| self.scrolled - begin.scrolled >= height);
        gone.map_or(0, |begin| begin.changes)
    }
}

#[cfg(test)]
mod tests {
    use super::*;

    #[test]
    fn changes_are_skipped_once_the_screen_has_scrolled() {
        let mut skips = Skips::default();
        for row in 1..=40 {
            assert_eq!(skips.scroll(1, 2 * row), row % DISTANCE == 0);
        }
        // Rows 17 to 40 are on the screen, and so changes from after those of row 16 on.
        assert_eq!(
            [24, 25, 40, 100].map(|height| skips.count(height)),
            [32, 24, 0, 0]
        );
        skips.scroll(100, 90);
        assert_eq!(skips.count(24), 80);
        skips.clear();
        assert_eq!(skips.count(1), 0);
    }
}
