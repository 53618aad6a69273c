//! What `vt100` shows.

use crate::{Color, Screen, Shown, Terminal};
use vt100::Cell;

pub struct Vt(vt100::Parser);

impl From<vt100::Color> for Color {
    fn from(color: vt100::Color) -> Color {
        match color {
            vt100::Color::Default => Color::Default,
            vt100::Color::Idx(index) => Color::Index(index),
            vt100::Color::Rgb(red, green, blue) => Color::Rgb(red, green, blue),
        }
    }
}

fn shown(cell: &Cell) -> Option<Shown> {
    if cell.is_wide_continuation() {
        return None;
    }
    let text = cell.contents();
    Some(Shown {
        text: if text.is_empty() { " ".into() } else { text },
        foreground: cell.fgcolor().into(),
        background: cell.bgcolor().into(),
        is_bold: cell.bold(),
        is_italic: cell.italic(),
        is_underlined: cell.underline(),
        is_inverse: cell.inverse(),
    })
}

impl Terminal for Vt {
    fn new(width: usize, height: usize) -> Vt {
        Vt(vt100::Parser::new(height as u16, width as u16, 0))
    }

    fn feed(&mut self, bytes: &[u8]) {
        self.0.process(bytes);
    }

    fn screen(&self) -> Screen {
        let screen = self.0.screen();
        let (height, width) = screen.size();
        let row = |y| {
            (0..width)
                .map(|x| screen.cell(y, x).and_then(shown))
                .collect()
        };
        let (y, x) = screen.cursor_position();
        Screen {
            rows: (0..height).map(row).collect(),
            cursor: (x.into(), y.into()),
        }
    }
}
