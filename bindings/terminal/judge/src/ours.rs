//! The terminal that is judged.

use crate::{Color, Screen, Shown, Terminal};
use tikeburo::{Attributes, ColorAttribute, Intensity, Underline};

pub struct Ours(tikeburo_terminal::Terminal);

impl From<ColorAttribute> for Color {
    fn from(color: ColorAttribute) -> Color {
        match color {
            ColorAttribute::Default => Color::Default,
            ColorAttribute::PaletteIndex(index) => Color::Index(index),
            ColorAttribute::TrueColorWithDefaultFallback(rgb)
            | ColorAttribute::TrueColorWithPaletteFallback(rgb, _) => {
                let (red, green, blue) = rgb.to_tuple_rgb8();
                Color::Rgb(red, green, blue)
            }
        }
    }
}

fn shown(text: &str, pen: &Attributes) -> Shown {
    Shown {
        text: text.to_string(),
        foreground: pen.foreground.into(),
        background: pen.background.into(),
        is_bold: pen.intensity == Intensity::Bold,
        is_italic: pen.italic,
        is_underlined: pen.underline != Underline::None,
        is_inverse: pen.reverse,
    }
}

impl Terminal for Ours {
    fn new(width: usize, height: usize) -> Ours {
        Ours(tikeburo_terminal::Terminal::new(width, height).unwrap())
    }

    fn feed(&mut self, bytes: &[u8]) {
        self.0.feed(bytes).unwrap();
    }

    fn screen(&self) -> Screen {
        let surface = self.0.surface();
        let (width, _) = surface.dimensions();
        let rows = surface.rows().map(|row| {
            let mut shown_cells = vec![None; width];
            let mut x = 0;
            for cell in row.cells() {
                let cell = cell.unwrap();
                shown_cells[x] = Some(shown(cell.str(), cell.attrs()));
                x += cell.width();
            }
            shown_cells
        });
        Screen {
            rows: rows.collect(),
            cursor: surface.cursor_position(),
        }
    }
}
