//! The state that a terminal is in, and the bytes that change it.

use super::moves::{by, shortest, Place};
use super::options::Options;
use super::pen::{has_marks, Link, Pen, Style};
use super::scrolls::Scroll;
use super::settings::Settings;
use super::sgr;
use crate::change::LineAttribute;
use std::fmt;
use std::io::Write;
use std::sync::Arc;

/// What a terminal was last told, or nothing where that is unknown, and what it is to be told.
pub(super) struct Terminal {
    /// What is still to be written.
    pub bytes: Vec<u8>,
    place: Place,
    style: Option<Style>,
    link: Option<Option<Arc<Link>>>,
    pub settings: Settings,
    /// Whether rows may have different widths, so that the cursor can't go along one for another.
    has_large_lines: bool,
}

impl Terminal {
    /// A terminal whose cursor has its own shape and colour, and of which no more is known.
    pub fn new(options: &Options) -> Terminal {
        Terminal {
            has_large_lines: options.line_attributes,
            bytes: Vec::new(),
            place: Place::Unknown,
            style: None,
            link: None,
            settings: Settings::new(),
        }
    }

    /// Nothing is known, and nothing is to be written.
    pub fn forget(&mut self) {
        self.bytes.clear();
        self.place = Place::Unknown;
        self.style = None;
        self.link = None;
        self.settings = self.settings.forgotten();
    }

    pub fn push(&mut self, text: &str) {
        self.bytes.extend_from_slice(text.as_bytes());
    }

    fn push_format(&mut self, arguments: fmt::Arguments<'_>) {
        // A vector takes all.
        self.bytes.write_fmt(arguments).unwrap_or_default();
    }

    /// Ends a sequence that was cut, and a region of rows that was left.
    pub fn recover(&mut self) {
        self.push("\x1b\\\x1b[r");
        self.place = Place::Unknown;
    }

    /// Erases all, by the default background.
    pub fn clear(&mut self) {
        self.set_pen(&Pen::default());
        self.place = Place::Unknown;
        self.move_to(0, 0);
        self.push("\x1b[2J");
    }

    pub fn move_to(&mut self, column: usize, row: usize) {
        if self.place != Place::At(column, row) {
            self.push(&self.shortest(column, row));
            self.place = Place::At(column, row);
        }
    }

    fn shortest(&self, column: usize, row: usize) -> String {
        match self.place {
            Place::At(_, at) | Place::Row(at) if self.has_large_lines && at != row => {
                shortest(Place::Unknown, column, row)
            }
            place => shortest(place, column, row),
        }
    }

    /// The bytes of a move.
    pub fn move_cost(&self, column: usize, row: usize) -> usize {
        self.shortest(column, row).len()
    }

    /// The cursor's row, where it is known.
    pub fn row(&self) -> Option<usize> {
        match self.place {
            Place::At(_, row) | Place::Row(row) => Some(row),
            Place::Unknown => None,
        }
    }

    /// The column on this row, where it is known.
    pub fn column(&self, row: usize) -> Option<usize> {
        match self.place {
            Place::At(column, at) if at == row => Some(column),
            _ => None,
        }
    }

    /// What is printed next is no part of the grapheme before it: a move comes between.
    pub fn part(&mut self) {
        if let Place::At(_, row) = self.place {
            self.place = Place::Row(row);
        }
    }

    /// Prints a text of `columns` columns on a row that has `width` of them. After the last one the
    /// terminal's column is unknown, since a wrap may be pending.
    pub fn print(&mut self, text: &str, columns: usize, width: usize) {
        self.push(text);
        self.place = match self.place {
            Place::At(column, row) if column + columns < width => Place::At(column + columns, row),
            Place::At(_, row) | Place::Row(row) => Place::Row(row),
            Place::Unknown => Place::Unknown,
        };
    }

    /// Prints a text that takes other columns on some terminals. The column after it is unknown,
    /// and where it might wrap, it doesn't.
    pub fn print_uncertain(&mut self, text: &str, row: usize, might_wrap: bool) {
        if might_wrap {
            self.push("\x1b[?7l");
        }
        self.push(text);
        if might_wrap {
            self.push("\x1b[?7h");
        }
        self.place = Place::Row(row);
    }

    pub fn set_pen(&mut self, pen: &Pen) {
        self.set_link(&pen.link);
        if self.style.as_ref() != Some(&pen.style) {
            self.push(&sgr::sequence(self.style.as_deref(), &pen.style));
            self.style = Some(pen.style.clone());
        }
    }

    /// Whether a text with this pen may be printed now, or a blank that looks as with it.
    pub fn has_pen(&self, pen: &Pen, is_blank: bool) -> bool {
        let Some(style) = &self.style else {
            return false;
        };
        self.link.as_ref() == Some(&pen.link)
            && (*style == pen.style || is_blank && blanks_alike(style, &pen.style))
    }

    /// Sets a pen by which erased cells are as blanks with this one.
    pub fn set_erasing_pen(&mut self, pen: &Pen) {
        if !self.has_pen(pen, true) {
            self.set_pen(pen);
        }
    }

    fn set_link(&mut self, link: &Option<Arc<Link>>) {
        if self.link.as_ref() == Some(link) {
            return;
        }
        match link {
            Some(link) => {
                self.push_format(format_args!("\x1b]8;id={};{}\x1b\\", link.id, link.uri))
            }
            None => self.push("\x1b]8;;\x1b\\"),
        }
        self.link = Some(link.clone());
    }

    /// Erases from the cursor to the end of its row.
    pub fn erase_to_end_of_line(&mut self) {
        self.push("\x1b[K");
    }

    /// Erases this many columns from the cursor on.
    pub fn erase_columns(&mut self, count: usize) {
        self.push(&by(count, 'X'));
    }

    /// Erases from the cursor to the end of the last row.
    pub fn erase_to_end_of_screen(&mut self) {
        self.push("\x1b[J");
    }

    /// Scrolls rows. The region is all rows again then.
    pub fn scroll(&mut self, scroll: &Scroll, height: usize) {
        let Scroll {
            top,
            bottom,
            count,
            up,
        } = *scroll;
        self.set_erasing_pen(&Pen::default());
        // Lines are inserted and deleted up to the last row where there is no region.
        let is_region = bottom < height;
        if is_region {
            self.push_format(format_args!("\x1b[{};{bottom}r", top + 1));
            self.place = Place::At(0, 0);
        }
        let (edge, feed, code) = if up {
            (bottom - 1, "\n", 'M')
        } else {
            (top, "\x1bM", 'L')
        };
        let lines = by(count, code);
        let feeds = feed.repeat(count.min(lines.len()));
        let saves = feeds.len() + self.move_cost(0, edge) < lines.len() + self.move_cost(0, top);
        if (is_region || top == 0) && saves && feeds.len() == feed.len() * count {
            self.move_to(0, edge);
            self.push(&feeds);
        } else {
            self.move_to(0, top);
            self.push(&lines);
        }
        if is_region {
            self.push("\x1b[r");
            self.place = Place::At(0, 0);
        }
    }

    /// Sets how large a row is shown.
    pub fn set_line_attribute(&mut self, row: usize, attribute: LineAttribute) {
        self.move_to(0, row);
        self.push(match attribute {
            LineAttribute::DoubleHeightTopHalfLine => "\x1b#3",
            LineAttribute::DoubleHeightBottomHalfLine => "\x1b#4",
            LineAttribute::SingleWidthLine => "\x1b#5",
            LineAttribute::DoubleWidthLine => "\x1b#6",
        });
    }
}

/// Whether a blank with these attributes looks as one with others.
fn blanks_alike(one: &Style, other: &Style) -> bool {
    one.background == other.background && !has_marks(one) && !has_marks(other)
}
