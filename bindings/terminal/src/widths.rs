//! Widths as programs assume them.

use tikeburo::{Error, WidthRange, WidthTable, Widths};
/// Widths as most programs assume them, which add up what the C library's `wcwidth` says of each
/// character: a variation selector has no column, so that `☂` with one has a single column, and the
/// two letters of a flag have one column each. By Unicode, as
/// [`Terminal::new`](crate::Terminal::new) measures, such a `☂` has two.
///
/// No cell has more than two columns. Where a program counts four for two people that a joiner
/// joins, the terminal has two, as by Unicode.
///
/// ```
/// use tikeburo_terminal::{wcwidth_widths, Terminal};
/// use tikeburo::Options;
///
/// let options = Options::new().widths(wcwidth_widths()?);
/// let mut terminal = Terminal::with_options(10, 1, options)?;
/// terminal.feed("☂\u{fe0f}|".as_bytes())?;
/// assert_eq!(terminal.surface().cursor_position(), (2, 0));
/// # Ok::<(), tikeburo::Error>(())
/// ```
///
/// # Errors
///
/// Those of [`WidthTable::new`], which don't come for these ranges.
pub fn wcwidth_widths() -> Result<Widths, Error> {
    WidthTable::new(&RANGES).map(Widths::Table)
}

static RANGES: [WidthRange; 3] = [
    range('\u{200d}', '\u{200d}', 0),   // the joiner
    range('\u{fe00}', '\u{fe0f}', 0),   // the variation selectors
    range('\u{1f1e6}', '\u{1f1ff}', 1), // the letters of flags
];

const fn range(first: char, last: char, columns: u8) -> WidthRange {
    WidthRange {
        first,
        last,
        columns,
    }
}
