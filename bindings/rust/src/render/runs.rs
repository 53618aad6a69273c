//! Pens of cells that stand beside one another.

use super::line::Line;
use super::options::Options;
use super::pen::{Link, Pen};
use crate::error::Error;
use crate::rows::{Row, RowCell};
use std::sync::Arc;

/// The pen of cells beside one another, and which one of the row's it is, and that of its blanks,
/// once the row has them.
#[derive(Default)]
pub(super) struct Run {
    pen: Pen,
    of_texts: Option<usize>,
    of_blanks: Option<usize>,
}

impl Run {
    /// The run that begins with this cell, at this column of a row.
    ///
    /// # Errors
    ///
    /// [`Error::Memory`].
    pub fn read(row: Row, column: usize, cell: &RowCell, options: &Options) -> Result<Run, Error> {
        let mut link = None;
        if cell.has_link() {
            link = read_link(row, column)?.map(Arc::new);
        }
        Ok(Run {
            pen: Pen::new(cell.attrs(), link, options),
            of_texts: None,
            of_blanks: None,
        })
    }

    /// Which of the row's pens a text has, or a blank.
    pub fn pen(&mut self, line: &mut Line, is_blank: bool) -> usize {
        let Run {
            pen,
            of_texts,
            of_blanks,
        } = self;
        if is_blank {
            *of_blanks.get_or_insert_with(|| line.add_pen(pen.of_blank()))
        } else {
            *of_texts.get_or_insert_with(|| line.add_pen(pen.clone()))
        }
    }
}

/// The link of the cell at this column, which has one, if it is sent.
fn read_link(row: Row, column: usize) -> Result<Option<Link>, Error> {
    let link = row.link(column)?;
    Ok(Link::new(link.uri(), link.id()))
}

/// The pens of two rows. Cells beside one another mostly have the same, compared once.
pub(super) struct Pens<'a> {
    pens: &'a [Pen],
    others: &'a [Pen],
    /// Which ones were compared last, and whether they are the same.
    last: (usize, usize, bool),
}

impl<'a> Pens<'a> {
    /// Those of rows that have the default pen first.
    pub fn new(pens: &'a [Pen], others: &'a [Pen]) -> Pens<'a> {
        let last = (0, 0, true);
        Pens { pens, others, last }
    }

    pub fn are_same(&mut self, pen: usize, other: usize) -> bool {
        if (self.last.0, self.last.1) != (pen, other) {
            self.last = (pen, other, self.pens[pen] == self.others[other]);
        }
        self.last.2
    }
}
