//! What a terminal is told beside its rows: its title, and how its cursor is shown.

use super::colors::palette;
use crate::change::{CursorShape, CursorVisibility};
use crate::color::ColorAttribute;
use std::io::Write;

/// What a terminal was last told, or nothing where that is unknown. Each call appends to bytes what
/// the terminal lacks.
#[derive(Debug)]
pub(super) struct Settings {
    visibility: Option<CursorVisibility>,
    shape: Option<CursorShape>,
    color: Option<ColorAttribute>,
    title: Option<String>,
    /// Whether the terminal keeps the title that it had.
    keeps_title: bool,
}

impl Settings {
    /// Those of a terminal whose cursor has its own shape and colour.
    pub fn new() -> Settings {
        Settings {
            visibility: None,
            shape: Some(CursorShape::Default),
            color: Some(ColorAttribute::Default),
            title: None,
            keeps_title: false,
        }
    }

    /// Those of which nothing is known but whether a title is kept.
    pub fn forgotten(&self) -> Settings {
        Settings {
            visibility: None,
            shape: None,
            color: None,
            title: None,
            keeps_title: self.keeps_title,
        }
    }

    pub fn set_visibility(&mut self, visibility: CursorVisibility, bytes: &mut Vec<u8>) {
        if self.visibility != Some(visibility) {
            bytes.extend_from_slice(match visibility {
                CursorVisibility::Visible => b"\x1b[?25h",
                CursorVisibility::Hidden => b"\x1b[?25l",
            });
            self.visibility = Some(visibility);
        }
    }

    pub fn set_shape(&mut self, shape: CursorShape, bytes: &mut Vec<u8>) {
        if self.shape != Some(shape) {
            write!(bytes, "\x1b[{} q", shape as u8).unwrap_or_default();
            self.shape = Some(shape);
        }
    }

    /// Sets the cursor's colour. That of an index is sent as the palette has it usually.
    pub fn set_color(&mut self, color: ColorAttribute, bytes: &mut Vec<u8>) {
        if self.color == Some(color) {
            return;
        }
        let rgb = match color {
            ColorAttribute::Default => None,
            ColorAttribute::PaletteIndex(index) => Some(palette(index)),
            ColorAttribute::TrueColorWithDefaultFallback(rgb)
            | ColorAttribute::TrueColorWithPaletteFallback(rgb, _) => Some(rgb),
        };
        match rgb.map(|rgb| rgb.to_tuple_rgb8()) {
            None => bytes.extend_from_slice(b"\x1b]112\x1b\\"),
            Some((red, green, blue)) => {
                write!(bytes, "\x1b]12;#{red:02x}{green:02x}{blue:02x}\x1b\\").unwrap_or_default();
            }
        }
        self.color = Some(color);
    }

    /// Sets the title, without its control characters. The terminal keeps the one that it had,
    /// which an empty one leaves where none was set.
    pub fn set_title(&mut self, title: &str, bytes: &mut Vec<u8>) {
        if self.title.as_deref() == Some(title) {
            return;
        }
        if !title.is_empty() && !self.keeps_title {
            bytes.extend_from_slice(b"\x1b[22;2t");
            self.keeps_title = true;
        }
        if self.keeps_title {
            let shown: String = title.chars().filter(|it| !it.is_control()).collect();
            write!(bytes, "\x1b]2;{shown}\x1b\\").unwrap_or_default();
        }
        self.title = Some(title.into());
    }

    /// Sets all as it was before anything was.
    pub fn end(&mut self, bytes: &mut Vec<u8>) {
        self.set_shape(CursorShape::Default, bytes);
        self.set_color(ColorAttribute::Default, bytes);
        if self.keeps_title {
            bytes.extend_from_slice(b"\x1b[23;2t");
            self.keeps_title = false;
        }
        self.set_visibility(CursorVisibility::Visible, bytes);
    }
}
