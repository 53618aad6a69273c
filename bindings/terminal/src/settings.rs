//! What a surface shows beside its cells and its title.

use tikeburo::{Changes, ColorAttribute, CursorShape, CursorVisibility};

/// How the cursor is shown.
#[derive(Clone, Copy, PartialEq, Eq)]
pub(crate) struct Settings {
    pub(crate) is_cursor_visible: bool,
    pub(crate) cursor_shape: CursorShape,
    pub(crate) cursor_color: ColorAttribute,
}

impl Default for Settings {
    fn default() -> Settings {
        Settings {
            is_cursor_visible: true,
            cursor_shape: CursorShape::Default,
            cursor_color: ColorAttribute::Default,
        }
    }
}

impl Settings {
    /// Appends the changes that a surface with other settings lacks.
    pub(crate) fn append_to(&self, changes: &mut Changes, others: &Settings) {
        if self.is_cursor_visible != others.is_cursor_visible {
            changes.cursor_visibility(CursorVisibility::from(self.is_cursor_visible));
        }
        if self.cursor_shape != others.cursor_shape {
            changes.cursor_shape(self.cursor_shape);
        }
        if self.cursor_color != others.cursor_color {
            changes.cursor_color(self.cursor_color);
        }
    }
}
