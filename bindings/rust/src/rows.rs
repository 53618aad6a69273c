//! Rows and cells that are shown.

use crate::attributes::{Attributes, Hyperlink};
use crate::change::LineAttribute;
use crate::error::Error;
use crate::ffi::{self, tk_attributes, tk_cell, tk_handle, tk_row_cell, tk_row_counts};
use crate::handle::{self, WriteParam};
use crate::screen::Screen;
use std::iter::FusedIterator;
use std::ops::Range;

/// The rows of a screen, from the top.
#[derive(Clone, Debug)]
#[must_use = "iterators are lazy and do nothing unless consumed"]
pub struct Rows<'a> {
    screen: &'a Screen,
    rows: Range<usize>,
}

impl<'a> Rows<'a> {
    pub(crate) fn new(screen: &'a Screen, height: usize) -> Rows<'a> {
        let rows = 0..height;
        Rows { screen, rows }
    }
}

impl<'a> Iterator for Rows<'a> {
    type Item = Row<'a>;

    fn next(&mut self) -> Option<Row<'a>> {
        let number = self.rows.next()?;
        Some(Row::new(self.screen, number))
    }

    fn size_hint(&self) -> (usize, Option<usize>) {
        self.rows.size_hint()
    }
}

impl DoubleEndedIterator for Rows<'_> {
    fn next_back(&mut self) -> Option<Self::Item> {
        let number = self.rows.next_back()?;
        Some(Row::new(self.screen, number))
    }
}

impl ExactSizeIterator for Rows<'_> {}

impl FusedIterator for Rows<'_> {}

/// A row of a screen.
#[derive(Clone, Copy, Debug)]
pub struct Row<'a> {
    screen: &'a Screen,
    number: usize,
}

impl<'a> Row<'a> {
    pub(crate) fn new(screen: &'a Screen, number: usize) -> Row<'a> {
        Row { screen, number }
    }

    /// Its number, from 0 at the top.
    #[must_use]
    pub fn number(&self) -> usize {
        self.number
    }

    /// The texts of its cells. Blanks at its end may be left out.
    ///
    /// # Errors
    ///
    /// [`Error::Range`]: the screen has no such row. [`Error::Memory`].
    pub fn text(&self) -> Result<String, Error> {
        self.text_of(false)
    }

    /// The texts of all that it shows, as [`Row::read_shown`] reads it: with the blanks at its end.
    ///
    /// # Errors
    ///
    /// Those of [`Row::text`].
    pub fn shown_text(&self) -> Result<String, Error> {
        self.text_of(true)
    }

    fn text_of(&self, filled: bool) -> Result<String, Error> {
        let handle = self.screen.handle.get();
        // Safety: the handle is live, and the buffer has the room that is named.
        handle::text(|text, room, len| unsafe {
            ffi::tk_row_text(handle, self.number, filled, text, room, len)
        })
    }

    /// How large it is shown.
    ///
    /// # Errors
    ///
    /// [`Error::Range`]: the screen has no such row.
    pub fn line_attribute(&self) -> Result<LineAttribute, Error> {
        let mut number = 0;
        // Safety: the screen's handle is live, and the call writes the number alone.
        Error::check(unsafe {
            ffi::tk_line_attribute(self.screen.handle.get(), self.number, &mut number)
        })?;
        number.try_into()
    }

    /// Its visible cells from the left, up to the screen's width: after a wide cell comes the one
    /// that is two columns further. The last item is the first error, if there is one.
    pub fn cells(&self) -> Cells<'a> {
        let (width, _) = self.screen.dimensions();
        Cells {
            row: *self,
            columns: 0..width,
        }
    }

    /// Reads the row's stored cells by one call of the library, into a buffer that keeps its memory
    /// for the next rows: for a renderer, which reads many cells. Blanks at the row's end may be
    /// left out.
    ///
    /// ```
    /// use tikeburo::{RowBuffer, Surface};
    ///
    /// let mut surface = Surface::new(20, 1)?;
    /// surface.add_change("か and x")?;
    /// let mut row = RowBuffer::new();
    /// surface.row(0).read(&mut row)?;
    /// let first = row.cells().next().unwrap();
    /// assert_eq!((first.str(), first.width()), ("か", 2));
    /// # Ok::<(), tikeburo::Error>(())
    /// ```
    ///
    /// # Errors
    ///
    /// [`Error::Range`]: the screen has no such row. [`Error::Memory`]. The buffer is empty then.
    pub fn read(&self, buffer: &mut RowBuffer) -> Result<(), Error> {
        buffer.fill(self.screen.handle.get(), self.number, ffi::tk_row_cells)
    }

    /// Reads all that the row shows by one call of the library, as [`Row::read`] does, with the
    /// blanks at its end: its cells take each column of the screen's width.
    ///
    /// # Errors
    ///
    /// [`Error::Range`]: the screen has no such row. [`Error::Memory`]. The buffer is empty then.
    pub fn read_shown(&self, buffer: &mut RowBuffer) -> Result<(), Error> {
        buffer.fill(self.screen.handle.get(), self.number, ffi::tk_shown_cells)
    }

    /// The cell at this column. At the second column of a wide cell it is a blank.
    ///
    /// # Errors
    ///
    /// [`Error::Range`]: the screen has no such row or column. [`Error::Memory`].
    pub fn cell(&self, column: usize) -> Result<Cell, Error> {
        let handle = self.screen.handle.get();
        let mut read = tk_cell::default();
        // Safety: the handle is live, `read` is written alone, and the buffer has the room that is
        // named.
        let text = handle::text(|text, room, len| unsafe {
            ffi::tk_cell_at(handle, column, self.number, &mut read, text, room, len)
        })?;
        let hyperlink = if read.has_link {
            Some(self.link(column)?)
        } else {
            None
        };
        Ok(Cell {
            text,
            width: read.columns.into(),
            attributes: Attributes::new(&read.attributes, hyperlink),
        })
    }

    /// The link of the cell at this column, which has one.
    pub(crate) fn link(&self, column: usize) -> Result<Hyperlink, Error> {
        let uri = self.uri(column)?;
        let id = handle::id(self.write_param(column))?;
        Ok(Hyperlink::new_with_id(uri, id))
    }

    fn uri(&self, column: usize) -> Result<String, Error> {
        let handle = self.screen.handle.get();
        // Safety: the handle is live, and the buffer has the room that is named.
        handle::text(|uri, room, len| unsafe {
            ffi::tk_link_at(handle, column, self.number, uri, room, len)
        })
    }

    /// The params of the link that the cell at this column has, each a key and a value, in the
    /// order of their keys: none where it has no link. A [`Hyperlink`] has of them the `id` alone.
    ///
    /// # Errors
    ///
    /// [`Error::Range`]: the screen has no such row or column. [`Error::Memory`].
    pub fn link_params(&self, column: usize) -> Result<Vec<(String, String)>, Error> {
        self.uri(column)?;
        handle::params(self.write_param(column))
    }

    /// The call that writes a param of the link of the cell at this column.
    fn write_param(&self, column: usize) -> impl WriteParam + '_ {
        let (handle, row) = (self.screen.handle.get(), self.number);
        move |index, key, key_room, key_len, value, value_room, value_len| {
            // Safety: the handle is live, and the buffers have the rooms that are named.
            unsafe {
                ffi::tk_link_param_at(
                    handle, column, row, index, key, key_room, key_len, value, value_room,
                    value_len,
                )
            }
        }
    }
}

/// The visible cells, from the left.
impl<'a> IntoIterator for Row<'a> {
    type Item = Result<Cell, Error>;
    type IntoIter = Cells<'a>;

    fn into_iter(self) -> Cells<'a> {
        self.cells()
    }
}

/// The visible cells, from the left.
impl<'a> IntoIterator for &Row<'a> {
    type Item = Result<Cell, Error>;
    type IntoIter = Cells<'a>;

    fn into_iter(self) -> Cells<'a> {
        self.cells()
    }
}

/// The visible cells of a row, from the left.
#[derive(Clone, Debug)]
#[must_use = "iterators are lazy and do nothing unless consumed"]
pub struct Cells<'a> {
    row: Row<'a>,
    columns: Range<usize>,
}

impl Iterator for Cells<'_> {
    type Item = Result<Cell, Error>;

    fn next(&mut self) -> Option<Result<Cell, Error>> {
        let column = self.columns.next()?;
        let cell = self.row.cell(column);
        self.columns.start = match &cell {
            Ok(cell) => self.columns.end.min(column + cell.width.max(1)),
            Err(_) => self.columns.end,
        };
        Some(cell)
    }
}

impl FusedIterator for Cells<'_> {}

/// A cell: a grapheme of one or two columns, and its attributes.
#[derive(Clone, PartialEq, Eq, Hash, Debug)]
pub struct Cell {
    text: String,
    width: usize,
    attributes: Attributes,
}

impl Cell {
    /// Its text.
    #[must_use]
    pub fn str(&self) -> &str {
        &self.text
    }

    /// How many columns it takes, 1 or 2.
    #[must_use]
    pub fn width(&self) -> usize {
        self.width
    }

    /// Its attributes.
    #[must_use]
    pub fn attrs(&self) -> &Attributes {
        &self.attributes
    }
}

/// A row as [`Row::read`] and [`Row::read_shown`] read it, or a line as [`Lines::read`] does: its
/// visible cells from the left. Behind the last one the row shows default blanks.
///
/// [`Lines::read`]: crate::Lines::read
#[derive(Clone, Default)]
pub struct RowBuffer {
    cells: Vec<tk_row_cell>,
    attributes: Vec<tk_attributes>,
    text: Vec<u8>,
    /// The attributes of each run of cells, without their links.
    runs: Vec<Attributes>,
    counts: tk_row_counts,
}

/// The call of the library that reads a row's cells.
type ReadCells = unsafe extern "C" fn(
    *mut tk_handle,
    usize,
    *mut tk_row_cell,
    usize,
    *mut tk_attributes,
    usize,
    *mut u8,
    usize,
    *mut tk_row_counts,
) -> i32;

impl RowBuffer {
    /// A buffer that has no row yet.
    #[must_use]
    pub fn new() -> RowBuffer {
        RowBuffer::default()
    }

    /// The texts of its cells.
    #[must_use]
    pub fn text(&self) -> &str {
        std::str::from_utf8(&self.text[..self.counts.text]).unwrap_or_default()
    }

    /// Its cells from the left.
    #[must_use]
    pub fn cells(&self) -> impl ExactSizeIterator<Item = RowCell<'_>> + DoubleEndedIterator {
        let text = self.text();
        let cells = &self.cells[..self.counts.cells];
        cells.iter().map(move |cell| RowCell {
            text: &text[cell.begin..cell.begin + cell.len],
            run: cell.run,
            attributes: &self.runs[cell.run],
            width: cell.columns.into(),
            has_link: cell.has_link,
        })
    }

    /// Reads what this call reads at this number, a row or a line: nothing where it fails.
    pub(crate) fn fill(
        &mut self,
        handle: *mut tk_handle,
        number: usize,
        call: ReadCells,
    ) -> Result<(), Error> {
        let read = self.read(handle, number, call);
        if read.is_err() {
            self.counts = tk_row_counts::default();
        }
        self.runs.clear();
        let attributes = &self.attributes[..self.counts.attributes];
        let runs = attributes.iter().map(|read| Attributes::new(read, None));
        self.runs.extend(runs);
        read
    }

    /// Makes the call, anew with more room where that is too little.
    fn read(
        &mut self,
        handle: *mut tk_handle,
        number: usize,
        call: ReadCells,
    ) -> Result<(), Error> {
        loop {
            // Safety: the handle is live, and the buffers have the rooms that are named.
            let status = unsafe {
                call(
                    handle,
                    number,
                    self.cells.as_mut_ptr(),
                    self.cells.len(),
                    self.attributes.as_mut_ptr(),
                    self.attributes.len(),
                    self.text.as_mut_ptr(),
                    self.text.len(),
                    &mut self.counts,
                )
            };
            if status != ffi::SHORT {
                return Error::check(status);
            }
            let (cells, runs) = (self.counts.cells, self.counts.attributes);
            let cells = self.cells.len().max(cells);
            self.cells.resize(cells, tk_row_cell::default());
            let runs = self.attributes.len().max(runs);
            self.attributes.resize(runs, tk_attributes::default());
            self.text.resize(self.text.len().max(self.counts.text), 0);
        }
    }
}

impl std::fmt::Debug for RowBuffer {
    fn fmt(&self, f: &mut std::fmt::Formatter<'_>) -> std::fmt::Result {
        f.debug_struct("RowBuffer")
            .field("text", &self.text())
            .finish_non_exhaustive()
    }
}

/// A cell of a row that was read at once.
#[derive(Clone, Copy, Debug)]
pub struct RowCell<'a> {
    text: &'a str,
    run: usize,
    attributes: &'a Attributes,
    width: usize,
    has_link: bool,
}

impl<'a> RowCell<'a> {
    /// Its text.
    #[must_use]
    pub fn str(&self) -> &'a str {
        self.text
    }

    /// How many columns it takes, 1 or 2.
    #[must_use]
    pub fn width(&self) -> usize {
        self.width
    }

    /// Its attributes, without its link, which [`Row::cell`] reads of a row.
    #[must_use]
    pub fn attrs(&self) -> &'a Attributes {
        self.attributes
    }

    /// The number of its run, from 0: cells beside one another have one run where they have the
    /// same attributes and the same link.
    #[must_use]
    pub fn run(&self) -> usize {
        self.run
    }

    /// Whether it has a link.
    #[must_use]
    pub fn has_link(&self) -> bool {
        self.has_link
    }
}
