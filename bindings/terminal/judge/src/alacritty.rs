//! What `alacritty_terminal` shows.

use crate::{Color, Screen, Shown, Terminal};
use alacritty_terminal::ansi::{self, NamedColor, Processor};
use alacritty_terminal::config::Config;
use alacritty_terminal::event::VoidListener;
use alacritty_terminal::grid::Dimensions;
use alacritty_terminal::index::{Column, Line, Point};
use alacritty_terminal::term::cell::{Cell, Flags};
use alacritty_terminal::term::Term;

struct Size {
    width: usize,
    height: usize,
}

impl Dimensions for Size {
    fn total_lines(&self) -> usize {
        self.height
    }

    fn screen_lines(&self) -> usize {
        self.height
    }

    fn columns(&self) -> usize {
        self.width
    }
}

pub struct Alacritty {
    term: Term<VoidListener>,
    parser: Processor,
}

impl From<ansi::Color> for Color {
    fn from(color: ansi::Color) -> Color {
        match color {
            ansi::Color::Named(NamedColor::Foreground | NamedColor::Background) => Color::Default,
            ansi::Color::Named(name) => Color::Index(name as u8),
            ansi::Color::Indexed(index) => Color::Index(index),
            ansi::Color::Spec(rgb) => Color::Rgb(rgb.r, rgb.g, rgb.b),
        }
    }
}

fn shown(cell: &Cell) -> Option<Shown> {
    if cell.flags.contains(Flags::WIDE_CHAR_SPACER) {
        return None;
    }
    // A tab that is jumped over stands in its cell.
    let first = if cell.c == '\t' { ' ' } else { cell.c };
    let marks = cell.zerowidth().unwrap_or_default();
    Some(Shown {
        text: [first].iter().chain(marks).collect(),
        foreground: cell.fg.into(),
        background: cell.bg.into(),
        is_bold: cell.flags.contains(Flags::BOLD),
        is_italic: cell.flags.contains(Flags::ITALIC),
        is_underlined: cell.flags.intersects(Flags::ALL_UNDERLINES),
        is_inverse: cell.flags.contains(Flags::INVERSE),
    })
}

impl Terminal for Alacritty {
    fn new(width: usize, height: usize) -> Alacritty {
        Alacritty {
            term: Term::new(&Config::default(), &Size { width, height }, VoidListener),
            parser: Processor::new(),
        }
    }

    fn feed(&mut self, bytes: &[u8]) {
        for byte in bytes {
            self.parser.advance(&mut self.term, *byte);
        }
    }

    fn screen(&self) -> Screen {
        let grid = self.term.grid();
        let row = |y: usize| {
            let cell = |x| &grid[Point::new(Line(y as i32), Column(x))];
            (0..grid.columns()).map(|x| shown(cell(x))).collect()
        };
        let cursor = &grid.cursor;
        let x = cursor.point.column.0 + usize::from(cursor.input_needs_wrap);
        Screen {
            rows: (0..grid.screen_lines()).map(row).collect(),
            cursor: (x, cursor.point.line.0 as usize),
        }
    }
}
