//! Titles.

const MOST_SAVED: usize = 10;

/// The titles of the window and of its icon, and those that are saved.
#[derive(Default)]
pub(crate) struct Titles {
    now: Pair,
    saved: Vec<Pair>,
    has_changed: bool, // that of the window
}

#[derive(Clone, Default)]
struct Pair {
    window: String,
    icon: String,
}

/// Which of the two is set, saved or restored.
#[derive(Clone, Copy, PartialEq, Eq)]
pub(crate) enum Which {
    Both,
    Icon,
    Window,
}

impl Which {
    /// The titles that a parameter names.
    pub(crate) fn new(number: usize) -> Option<Which> {
        [Which::Both, Which::Icon, Which::Window]
            .get(number)
            .copied()
    }
}

impl Titles {
    pub(crate) fn window(&self) -> &str {
        &self.now.window
    }

    pub(crate) fn icon(&self) -> &str {
        &self.now.icon
    }

    pub(crate) fn set(&mut self, which: Which, title: &str) {
        if which != Which::Icon {
            self.has_changed |= self.now.window != title;
            self.now.window = title.into();
        }
        if which != Which::Window {
            self.now.icon = title.into();
        }
    }

    /// Empties both, and drops those that are saved.
    pub(crate) fn reset(&mut self) {
        self.set(Which::Both, "");
        self.saved.clear();
    }

    /// Whether the window's title has changed since the last call.
    pub(crate) fn take_change(&mut self) -> bool {
        std::mem::take(&mut self.has_changed)
    }

    /// Saves both. The oldest ones are dropped where there are too many.
    pub(crate) fn save(&mut self) {
        if self.saved.len() == MOST_SAVED {
            self.saved.remove(0);
        }
        self.saved.push(self.now.clone());
    }

    /// Restores the titles that were saved last, if there are any.
    pub(crate) fn restore(&mut self, which: Which) {
        if let Some(Pair { window, icon }) = self.saved.pop() {
            if which != Which::Icon {
                self.set(Which::Window, &window);
            }
            if which != Which::Window {
                self.set(Which::Icon, &icon);
            }
        }
    }
}
