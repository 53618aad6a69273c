//! How texts are measured.

use crate::error::Error;
use crate::ffi::{self, tk_width_range};

/// How texts are measured.
#[derive(Clone, Copy, PartialEq, Eq, Hash, Debug, Default)]
#[non_exhaustive]
pub enum Widths {
    /// By the Unicode tables: a grapheme has one column or two.
    #[default]
    Unicode,
    /// Each grapheme has one column.
    OneColumn,
    /// By a table.
    Table(WidthTable),
}

impl Widths {
    /// The library's number of widths that need no table.
    pub(crate) fn number_or_table(self) -> Result<u8, WidthTable> {
        match self {
            Widths::Unicode => Ok(0),
            Widths::OneColumn => Ok(1),
            Widths::Table(table) => Err(table),
        }
    }
}

/// The characters from the first to the last, each of this many columns.
#[repr(C)]
#[derive(Clone, Copy, PartialEq, Eq, Hash, Debug)]
pub struct WidthRange {
    /// The first character.
    pub first: char,
    /// The last one.
    pub last: char,
    /// 0, 1 or 2, and 1 where one of them is printable ASCII.
    pub columns: u8,
}

/// A table of widths, as of what a system's `wcwidth` says. A grapheme has the columns of its
/// characters together, and at most two. Unicode says those of a character that is in no range, and
/// those of a grapheme none of whose characters is in one.
///
/// # Examples
///
/// ```
/// use tikeburo::{text_width, Error, WidthRange, WidthTable, Widths};
///
/// static AMBIGUOUS: [WidthRange; 2] = [
///     WidthRange { first: '×', last: '×', columns: 2 },
///     WidthRange { first: '‘', last: '’', columns: 2 },
/// ];
/// let table = WidthTable::new(&AMBIGUOUS)?;
/// assert_eq!(text_width("3×か", Widths::Table(table)), 5);
/// # Ok::<(), Error>(())
/// ```
///
/// A table that is made as the program runs is leaked, once: `Vec::leak`.
#[derive(Clone, Copy, PartialEq, Eq, Hash, Debug)]
pub struct WidthTable {
    ranges: &'static [WidthRange],
}

impl WidthTable {
    /// The table of these ranges.
    ///
    /// # Errors
    ///
    /// [`Error::Range`]: they don't rise, two have the same character, or one has other columns
    /// than a range may have.
    pub fn new(ranges: &'static [WidthRange]) -> Result<WidthTable, Error> {
        let table = WidthTable { ranges };
        let status = table.text_width("", &mut 0);
        Error::check(status).map(|()| table)
    }

    /// The ranges, as the library takes them, and how many they are.
    pub(crate) fn parts(self) -> (*const tk_width_range, usize) {
        (self.ranges.as_ptr().cast(), self.ranges.len())
    }

    /// Measures a text, and returns the call's status: it fails where the ranges are no table.
    pub(crate) fn text_width(self, text: &str, columns: &mut usize) -> i32 {
        let (ranges, count) = self.parts();
        // Safety: the text and the ranges are only read. A range has the fields of one of C, where
        // a character is its number.
        unsafe { ffi::tk_text_width_by(text.as_ptr(), text.len(), ranges, count, columns) }
    }
}

#[cfg(test)]
mod tests {
    use super::*;
    use crate::{graphemes, text_width, Client, Limits, Options, Surface};

    const fn range(first: char, last: char, columns: u8) -> WidthRange {
        WidthRange {
            first,
            last,
            columns,
        }
    }

    static RANGES: [WidthRange; 4] = [
        range('a', 'z', 1),
        range('\u{300}', '\u{36f}', 0),
        range('…', '…', 2),
        range('\u{1f1e6}', '\u{1f1ff}', 1),
    ];

    fn widths() -> Widths {
        Widths::Table(WidthTable::new(&RANGES).unwrap())
    }

    #[test]
    fn a_table_says_the_columns_of_its_characters() {
        assert_eq!(text_width("…", Widths::Unicode), 1);
        assert_eq!(text_width("…", widths()), 2);
        assert_eq!(text_width("e\u{301}か👩‍🚀🇩🇪☂️ x ", widths()), 12);
        let pieces = graphemes("x…か🇩🇪", widths()).unwrap();
        assert_eq!(pieces, [("x", 1), ("…", 2), ("か", 2), ("🇩🇪", 2)]);
    }

    #[test]
    fn surfaces_and_clients_measure_by_it() {
        let options = Options::new().widths(widths());
        let mut surface = Surface::with_options(8, 1, options).unwrap();
        surface.add_change("a…b").unwrap();
        assert_eq!(surface.cursor_position(), (4, 0));
        let mut client = Client::with_limits(widths(), Limits::default()).unwrap();
        let answer = surface.respond(&client.ask().unwrap()).unwrap();
        client.feed(&answer).unwrap();
        assert_eq!(client.screen().cursor_position(), (4, 0));
    }

    #[test]
    fn other_ranges_are_no_table() {
        static WRONG: [&[WidthRange]; 5] = [
            &[range('b', 'a', 1)],
            &[range('か', 'か', 3)],
            &[range(' ', ' ', 2)],
            &[range('か', 'き', 1), range('き', 'く', 1)],
            &[range('く', 'く', 1), range('か', 'か', 1)],
        ];
        for ranges in WRONG {
            assert_eq!(WidthTable::new(ranges), Err(Error::Range));
        }
        assert!(WidthTable::new(&[]).is_ok());
    }
}
