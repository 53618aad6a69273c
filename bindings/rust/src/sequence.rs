//! Sequences of changes, which report where their changes move a cursor.

use crate::change::{Change, Position};
use crate::error::Error;
use crate::graphemes::graphemes;
use crate::widths::Widths;

/// A growing list of changes, which reports where its changes move a cursor, and the height of the
/// rows that the cursor was in.
///
/// It is for a program that doesn't own the whole screen, such as a line editor, whose output
/// begins wherever the cursor is. So rows are numbered from there: the cursor begins at column 0 of
/// row 0, and rows above that one are negative. Nothing scrolls, and the rows have no end.
///
/// ```
/// use tikeburo::{ChangeSequence, Error};
///
/// let mut prompt = ChangeSequence::new(24, 8)?;
/// prompt.add("> cargo か")?;
/// assert_eq!(prompt.current_cursor_position(), (2, 1)); // か has no room in the first row
/// prompt.move_to((2, 0))?;
/// assert_eq!(prompt.consume().len(), 2);
/// # Ok::<(), Error>(())
/// ```
#[derive(Clone, Debug)]
pub struct ChangeSequence {
    widths: Widths,
    rows: i128,
    columns: i128,
    x: usize,
    y: isize,
    least: isize,
    greatest: isize,
    changes: Vec<Change>,
}

impl ChangeSequence {
    /// An empty sequence for a screen of this many rows and columns, each from 1 to 2^32 - 1, that
    /// measures texts by Unicode.
    ///
    /// # Errors
    ///
    /// [`Error::Range`]: the size.
    pub fn new(rows: usize, columns: usize) -> Result<ChangeSequence, Error> {
        ChangeSequence::with_widths(rows, columns, Widths::default())
    }

    /// An empty sequence for a screen of this size, which measures texts so.
    ///
    /// # Errors
    ///
    /// [`Error::Range`]: the size.
    pub fn with_widths(
        rows: usize,
        columns: usize,
        widths: Widths,
    ) -> Result<ChangeSequence, Error> {
        let size = |count: usize| match u32::try_from(count) {
            Ok(count @ 1..) => Ok(i128::from(count)),
            _ => Err(Error::Range),
        };
        Ok(ChangeSequence {
            widths,
            rows: size(rows)?,
            columns: size(columns)?,
            x: 0,
            y: 0,
            least: 0,
            greatest: 0,
            changes: Vec::new(),
        })
    }

    /// The changes that were added, in order.
    #[must_use]
    pub fn consume(self) -> Vec<Change> {
        self.changes
    }

    /// The cursor's column and row. The column is the number of columns where a wrap is pending,
    /// and a row above the first is negative.
    #[must_use]
    pub fn current_cursor_position(&self) -> (usize, isize) {
        (self.x, self.y)
    }

    /// The greatest row less the least row that the cursor was in, row 0 included: one less than
    /// the number of rows from the one to the other.
    #[must_use]
    pub fn render_height(&self) -> usize {
        self.greatest.abs_diff(self.least)
    }

    /// Adds a change, and moves the cursor: by a text as on a surface, and down by a row at each
    /// LF, CR LF and wrap; by a position to the remainder of its column by the columns, which is
    /// never negative, and of its row by the rows, which has the row's sign; by a clear of the
    /// screen and a scroll to column 0 of row 0; and by other changes not at all.
    ///
    /// # Errors
    ///
    /// [`Error::Range`]: a text moves the row past the greatest `isize`. [`Error::Memory`]. Both
    /// leave the sequence unchanged.
    pub fn add(&mut self, change: impl Into<Change>) -> Result<(), Error> {
        let change = change.into();
        (self.x, self.y) = self.after(&change)?;
        self.least = self.least.min(self.y);
        self.greatest = self.greatest.max(self.y);
        self.changes.push(change);
        Ok(())
    }

    /// Adds changes in order.
    ///
    /// # Errors
    ///
    /// Those of [`ChangeSequence::add`]: the sequence has the changes before the refused one.
    pub fn add_changes(&mut self, changes: Vec<Change>) -> Result<(), Error> {
        changes.into_iter().try_for_each(|change| self.add(change))
    }

    /// Adds the change that moves the cursor by the distances from its column and row to these.
    ///
    /// # Errors
    ///
    /// [`Error::Range`]: a distance doesn't fit an `isize`, and the sequence is unchanged.
    pub fn move_to(&mut self, (column, row): (usize, isize)) -> Result<(), Error> {
        let x = Position::Relative(in_range(column as i128 - self.x as i128)?);
        let y = Position::Relative(in_range(row as i128 - self.y as i128)?);
        self.add(Change::CursorPosition { x, y })
    }

    /// Where a change moves the cursor.
    fn after(&self, change: &Change) -> Result<(usize, isize), Error> {
        match change {
            Change::Text(text) => self.after_text(text),
            Change::CursorPosition { x, y } => {
                let column = aim(*x, self.x as i128, self.columns).rem_euclid(self.columns);
                let row = aim(*y, self.y as i128, self.rows) % self.rows;
                Ok((in_range(column)?, in_range(row)?))
            }
            Change::ClearScreen(_)
            | Change::ScrollRegionUp { .. }
            | Change::ScrollRegionDown { .. } => Ok((0, 0)),
            _ => Ok((self.x, self.y)),
        }
    }

    fn after_text(&self, text: &str) -> Result<(usize, isize), Error> {
        let columns: usize = in_range(self.columns)?;
        let (mut x, mut y) = (self.x, self.y as i128);
        for (grapheme, width) in graphemes(text, self.widths)? {
            match grapheme {
                "\r" => x = 0,
                "\n" => y += 1,
                _ if x == columns => (x, y) = (columns.min(width.max(1)), y + 1),
                _ => x = columns.min(x + width.max(1)),
            }
        }
        Ok((x, in_range(y)?))
    }
}

/// The column or row that a position asks for, from a current one, of this many.
fn aim(position: Position, from: i128, count: i128) -> i128 {
    match position {
        Position::Relative(distance) => from + distance as i128,
        Position::Absolute(place) => place as i128,
        Position::EndRelative(distance) => count - distance as i128,
    }
}

fn in_range<T: TryFrom<i128>>(value: i128) -> Result<T, Error> {
    T::try_from(value).map_err(|_| Error::Range)
}
