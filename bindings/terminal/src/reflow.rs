//! Lines that are wrapped anew in another width.

use crate::cursor::Cursor;
use crate::Scrollback;
use std::mem;
use std::ops::Range;
use tikeburo::{Attributes, Changes, Error, Lines, Options, RowBuffer, RowCell, Surface};

/// The part of a line that a row has.
#[derive(Clone, Copy, Default)]
struct Part {
    /// The columns up to the last cell that isn't a default blank, and those of that cell.
    columns: usize,
    last_columns: usize,
    /// Whether the line goes on in the next row.
    is_wrapped: bool,
}

impl Part {
    fn new(row: &RowBuffer) -> Part {
        let mut part = Part::default();
        let mut columns = 0;
        for cell in row.cells() {
            columns += cell.width();
            if !is_blank(&cell) {
                part = Part {
                    columns,
                    last_columns: cell.width(),
                    is_wrapped: cell.attrs().wrapped,
                };
            }
        }
        part
    }
}

fn is_blank(cell: &RowCell<'_>) -> bool {
    cell.str() == " " && !cell.has_link() && *cell.attrs() == Attributes::default()
}

/// Gives the main screen another size, and wraps its lines and those of the scrollback anew. The
/// screen begins with the same line as before, unless the cursor's row would have no room.
pub(crate) fn reflow(
    surface: &mut Surface,
    cursor: &mut Cursor,
    mut scrollback: Option<&mut Scrollback>,
    (width, height): (usize, usize),
) -> Result<(), Error> {
    let mut old = Lines::new()?;
    if let Some(scrollback) = &mut scrollback {
        mem::swap(&mut old, &mut scrollback.lines);
    }
    let first = old.len();
    push_rows(surface, cursor.y, &mut old)?;
    let mut wrapper = Wrapper::new(&old, width, Options::new().widths(surface.widths()))?;
    let mut top = (first, 0);
    let mut at = (first + cursor.y, cursor.end());
    wrapper.wrap_all([&mut top, &mut at])?;
    let mut new = wrapper.new;
    let top = top.0.max(at.0.min(new.len().saturating_sub(height)));
    surface.add(Changes::new().clear_screen(Default::default()))?;
    surface.resize(width, height)?;
    for (row, line) in (top..new.len()).take(height).enumerate() {
        surface.draw_line(row, &new, line)?;
    }
    if let Some(scrollback) = scrollback {
        new.remove(top..new.len())?;
        scrollback.lines = new;
        scrollback.drop_oldest()?;
    }
    let end = at.1.min(width);
    cursor.go(end.min(width - 1), (at.0 - top).min(height - 1));
    cursor.is_wrap_pending = end == width;
    Ok(())
}

/// Appends the rows of a surface to lines, up to the last one that shows something, and at least
/// up to row `least`.
fn push_rows(surface: &Surface, least: usize, lines: &mut Lines) -> Result<(), Error> {
    let mut row = RowBuffer::new();
    let mut last = surface.dimensions().1 - 1;
    while last > least {
        surface.row(last).read(&mut row)?;
        if Part::new(&row).columns > 0 {
            break;
        }
        last -= 1;
    }
    (0..=last).try_for_each(|y| lines.push_row(surface, y))
}

/// Wraps lines.
struct Wrapper<'a> {
    old: &'a Lines,
    parts: Vec<Part>,
    new: Lines,
    width: usize,
    options: Options,
    /// A surface of one row, on which lines are drawn.
    row: Surface,
    buffer: RowBuffer,
}

impl<'a> Wrapper<'a> {
    fn new(old: &'a Lines, width: usize, options: Options) -> Result<Wrapper<'a>, Error> {
        let mut buffer = RowBuffer::new();
        let read = |index| old.read(index, &mut buffer).map(|()| Part::new(&buffer));
        let parts: Vec<_> = (0..old.len()).map(read).collect::<Result<_, _>>()?;
        let columns = parts.iter().map(|part| part.columns).max();
        let columns = columns.unwrap_or(0).max(width);
        Ok(Wrapper {
            old,
            parts,
            new: Lines::new()?,
            width,
            options,
            row: Surface::with_options(columns, 1, options)?,
            buffer,
        })
    }

    /// Wraps all lines. Places, each an old row and column, become new ones.
    fn wrap_all(&mut self, mut places: [&mut (usize, usize); 2]) -> Result<(), Error> {
        let olds = [*places[0], *places[1]];
        let mut begin = 0;
        while begin < self.parts.len() {
            let wrapped = self.parts[begin..].iter().take_while(|it| it.is_wrapped);
            let end = self.parts.len().min(begin + wrapped.count() + 1);
            let start = self.new.len();
            self.push_line(begin..end)?;
            for (place, (row, column)) in places.iter_mut().zip(olds) {
                if (begin..end).contains(&row) {
                    let before = self.parts[begin..row].iter().map(|part| part.columns);
                    **place = self.find(start, before.sum::<usize>() + column)?;
                }
            }
            begin = end;
        }
        Ok(())
    }

    /// Appends the line of these rows.
    fn push_line(&mut self, rows: Range<usize>) -> Result<(), Error> {
        let parts = &self.parts[rows.clone()];
        let columns: usize = parts.iter().map(|part| part.columns).sum();
        if rows.len() == 1 && columns <= self.width {
            self.row.draw_line(0, self.old, rows.start)?;
            return self.new.push_row(&self.row, 0);
        }
        let mut line = Lines::new()?;
        let joined = self.join(rows, columns)?;
        line.push_row(&joined, 0)?;
        line.wrap(self.width)?;
        for index in 0..line.len() {
            self.row.draw_line(0, &line, index)?;
            self.new.push_row(&self.row, 0)?;
        }
        Ok(())
    }

    /// A surface of one row that has the line of these rows, without the marks of its wraps.
    fn join(&mut self, rows: Range<usize>, columns: usize) -> Result<Surface, Error> {
        let mut joined = Surface::with_options(columns.max(1), 1, self.options)?;
        let mut column = 0;
        for row in rows {
            let part = self.parts[row];
            self.row.draw_line(0, self.old, row)?;
            joined.draw_from_screen(&self.row, column, 0)?;
            column += part.columns;
            if part.is_wrapped {
                let last = column - part.last_columns;
                let cell = joined.row(0).cell(last)?;
                let attributes = Attributes {
                    wrapped: false,
                    ..cell.attrs().clone()
                };
                let mut changes = Changes::new();
                changes.move_to(last, 0).pen(&attributes).text(cell.str());
                joined.add(&changes)?;
            }
        }
        Ok(joined)
    }

    /// The new row and column that are `offset` columns after the beginning of row `start`.
    fn find(&mut self, start: usize, offset: usize) -> Result<(usize, usize), Error> {
        let (mut line, mut column) = (start, offset);
        while line + 1 < self.new.len() {
            self.new.read(line, &mut self.buffer)?;
            let part = Part::new(&self.buffer);
            if column < part.columns || !part.is_wrapped {
                break;
            }
            column -= part.columns;
            line += 1;
        }
        Ok((line, column))
    }
}
