//! A row of a terminal, as it is sent.

use super::options::Options;
use super::pen::Pen;
use super::runs::{Pens, Run};
use super::texts::{joins, shown};
use crate::change::LineAttribute;
use crate::error::Error;
use crate::rows::{RowBuffer, RowCell};
use crate::screen::Screen;
use std::ptr;

/// What a row of the terminal shows: a cell for each column. Rows that show the same are equal,
/// unless they have many pens.
#[derive(Clone, PartialEq, Eq)]
pub(super) struct Line {
    text: String,
    cells: Vec<Cell>,
    /// The pens of its cells, as they come first. The first one is the default pen.
    pens: Vec<Pen>,
    /// How large it is shown, where that is known.
    pub attribute: Option<LineAttribute>,
    /// Whether each text takes one column, on all terminals.
    is_plain: bool,
}

/// How many of a row's last pens are looked through for one that is to be added.
const RECENT: usize = 8;

/// A column of a row.
#[derive(Clone, PartialEq, Eq)]
struct Cell {
    begin: usize,
    end: usize,
    /// How many columns its text takes, and none at the second column of a wide one.
    columns: usize,
    pen: usize,
    /// How many it takes on terminals that measure each character by itself.
    by_characters: usize,
    /// Whether it would be one grapheme with the text before it.
    is_apart: bool,
}

impl Line {
    /// A row of this many default blanks.
    pub fn blank(columns: usize, attribute: Option<LineAttribute>) -> Line {
        let mut line = Line::empty(columns, attribute);
        line.push_blanks(columns, 0, false);
        line
    }

    /// A row that has no column yet, and room for this many.
    fn empty(columns: usize, attribute: Option<LineAttribute>) -> Line {
        Line {
            text: String::with_capacity(columns),
            cells: Vec::with_capacity(columns),
            pens: vec![Pen::default()],
            attribute,
            is_plain: true,
        }
    }

    /// What a row of a screen shows on a terminal, cut or with blanks after it.
    ///
    /// # Errors
    ///
    /// [`Error::Memory`].
    pub fn read(
        screen: &Screen,
        row: usize,
        buffer: &mut RowBuffer,
        options: &Options,
    ) -> Result<Line, Error> {
        let (_, height) = screen.dimensions();
        let usual = LineAttribute::SingleWidthLine;
        if row >= height {
            return Ok(Line::blank(options.width, Some(usual)));
        }
        let row = screen.row(row);
        let attribute = if options.line_attributes {
            row.line_attribute()?
        } else {
            usual
        };
        let columns = if attribute == usual {
            options.width
        } else {
            (options.width / 2).max(1)
        };
        row.read(buffer)?;
        let mut line = Line::empty(columns, Some(attribute));
        let (mut number, mut run) = (None, Run::default());
        for cell in buffer.cells() {
            if line.len() >= columns {
                break;
            }
            if number != Some(cell.run()) {
                number = Some(cell.run());
                run = Run::read(row, line.len(), &cell, options)?;
            }
            line.add_cell(&cell, &mut run, columns, screen)?;
        }
        line.fill(columns, screen)?;
        Ok(line)
    }

    /// Adds a cell of a run. Of a wide one that crosses the edge a blank is shown.
    fn add_cell(
        &mut self,
        cell: &RowCell,
        run: &mut Run,
        limit: usize,
        screen: &Screen,
    ) -> Result<(), Error> {
        let room = limit - self.len();
        let columns = cell.width().clamp(1, room);
        let text = if cell.width() > room { " " } else { cell.str() };
        if let ([character @ b' '..=b'~'], 1, true) =
            (text.as_bytes(), columns, self.ends_in_ascii())
        {
            let pen = run.pen(self, text == " ");
            self.push_one(*character, pen, false);
            return Ok(());
        }
        let shown = shown(text, columns, screen.widths())?;
        let is_blank = shown.text.bytes().all(|byte| byte == b' ');
        let pen = run.pen(self, is_blank);
        let is_apart = self.is_joined_by(&shown.text, screen)?;
        if is_blank {
            self.push_blanks(columns, pen, is_apart);
            return Ok(());
        }
        self.is_plain &= columns == 1 && shown.columns == 1;
        let begin = self.text.len();
        self.text.push_str(&shown.text);
        let end = self.text.len();
        for column in 0..columns {
            self.cells.push(Cell {
                begin,
                end,
                columns: if column == 0 { columns } else { 0 },
                pen,
                by_characters: shown.columns,
                is_apart,
            });
        }
        Ok(())
    }

    /// Adds a pen, unless it is the default one or one of the last, and returns which one it is.
    pub fn add_pen(&mut self, pen: Pen) -> usize {
        if pen == self.pens[0] {
            return 0;
        }
        let first = self.pens.len().saturating_sub(RECENT);
        let same = self.pens[first..].iter().rposition(|it| *it == pen);
        same.map_or_else(
            || {
                self.pens.push(pen);
                self.pens.len() - 1
            },
            |place| first + place,
        )
    }

    /// Whether what is printable in ASCII is no part of a grapheme with the text before it.
    fn ends_in_ascii(&self) -> bool {
        self.text.as_bytes().last().map_or(true, u8::is_ascii)
    }

    /// Whether a text would be part of a grapheme with the last cell's text.
    fn is_joined_by(&self, text: &str, screen: &Screen) -> Result<bool, Error> {
        let before = self.cells.last();
        let before = before.map_or("", |cell| &self.text[cell.begin..cell.end]);
        joins(before, text, screen.widths())
    }

    /// Adds blanks of a column each, the first of which may have to stand apart.
    fn push_blanks(&mut self, columns: usize, pen: usize, is_apart: bool) {
        for column in 0..columns {
            self.push_one(b' ', pen, is_apart && column == 0);
        }
    }

    /// Adds a printable character of ASCII.
    fn push_one(&mut self, character: u8, pen: usize, is_apart: bool) {
        let begin = self.text.len();
        self.text.push(character.into());
        self.cells.push(Cell {
            begin,
            end: begin + 1,
            columns: 1,
            pen,
            by_characters: 1,
            is_apart,
        });
    }

    /// Adds default blanks up to this many columns.
    fn fill(&mut self, columns: usize, screen: &Screen) -> Result<(), Error> {
        let missing = columns.saturating_sub(self.len());
        if missing > 0 {
            let is_apart = !self.ends_in_ascii() && self.is_joined_by(" ", screen)?;
            self.push_blanks(missing, 0, is_apart);
        }
        Ok(())
    }

    /// How many columns it has.
    pub fn len(&self) -> usize {
        self.cells.len()
    }

    /// The text at this column, which is that of the first one at the second one of a wide text.
    pub fn text(&self, column: usize) -> &str {
        let cell = &self.cells[column];
        &self.text[cell.begin..cell.end]
    }

    /// The texts of the cells that begin from one column to another.
    pub fn texts(&self, begin: usize, end: usize) -> &str {
        &self.text[self.cells[begin].begin..self.cells[end].begin]
    }

    pub fn pen(&self, column: usize) -> &Pen {
        &self.pens[self.cells[column].pen]
    }

    /// How many columns the text takes that begins at this one, or 0.
    pub fn columns(&self, column: usize) -> usize {
        self.cells[column].columns
    }

    /// How many the text here takes on terminals that measure each character by itself.
    pub fn columns_by_characters(&self, column: usize) -> usize {
        self.cells[column].by_characters
    }

    /// Whether terminals agree on the columns of the text that begins here.
    pub fn is_certain(&self, column: usize) -> bool {
        self.columns(column) == self.columns_by_characters(column)
    }

    /// Whether this text would be one grapheme with the one before it.
    pub fn is_apart(&self, column: usize) -> bool {
        self.cells[column].is_apart
    }

    /// Whether this is the second column of a wide text.
    pub fn is_second_half(&self, column: usize) -> bool {
        self.cells
            .get(column)
            .map_or(false, |cell| cell.columns == 0)
    }

    pub fn is_blank(&self, column: usize) -> bool {
        let cell = &self.cells[column];
        cell.end - cell.begin == 1 && self.text.as_bytes()[cell.begin] == b' '
    }

    /// How many blanks of one pen there are from this column on.
    pub fn blanks(&self, column: usize) -> usize {
        let mut pens = Pens::new(&self.pens, &self.pens);
        let first = self.cells[column].pen;
        let mut columns = column..self.len();
        let end =
            columns.find(|it| !self.is_blank(*it) || !pens.are_same(first, self.cells[*it].pen));
        end.unwrap_or(self.len()) - column
    }

    /// For each column whether it has to be written where another row is shown: where the texts
    /// differ that take it, and where a text that differs may cover it on terminals that measure
    /// that otherwise. Nothing where the rows are equal.
    pub fn differing(&self, shown: &Line) -> Vec<bool> {
        if ptr::eq(self, shown) || self == shown {
            return Vec::new();
        }
        if self.attribute != shown.attribute || self.len() != shown.len() {
            return vec![true; self.len()];
        }
        let mut differing = self.unequal(shown);
        if self.is_plain {
            return differing;
        }
        for column in 0..self.len() {
            if differing[column] && self.columns(column) > 0 && !self.is_certain(column) {
                let end = column + self.columns_by_characters(column);
                differing[column..self.len().min(end)].fill(true);
            }
        }
        differing
    }

    /// For each column whether the texts that take it differ.
    fn unequal(&self, other: &Line) -> Vec<bool> {
        let mut pens = Pens::new(&self.pens, &other.pens);
        let pairs = self.cells.iter().zip(&other.cells);
        if self.has_bytes_alone() && other.has_bytes_alone() {
            let texts = self.text.bytes().zip(other.text.bytes());
            let unequal = pairs.zip(texts).map(|((cell, another), (byte, other))| {
                byte != other || !pens.are_same(cell.pen, another.pen)
            });
            return unequal.collect();
        }
        let unequal = pairs.map(|(cell, another)| {
            cell.columns != another.columns
                || !self.have_same_text(cell, other, another)
                || !pens.are_same(cell.pen, another.pen)
        });
        unequal.collect()
    }

    /// Whether each column has a text of one byte.
    fn has_bytes_alone(&self) -> bool {
        self.is_plain && self.text.len() == self.len()
    }

    fn have_same_text(&self, cell: &Cell, other: &Line, another: &Cell) -> bool {
        let (text, other) = (self.text.as_bytes(), other.text.as_bytes());
        text[cell.begin..cell.end] == other[another.begin..another.end]
    }
}

#[cfg(test)]
impl Line {
    /// A row of these characters, of one column each, with the default pen.
    pub fn of(text: &str) -> Line {
        let mut line = Line::blank(text.len(), Some(LineAttribute::SingleWidthLine));
        line.text = text.into();
        line
    }
}
