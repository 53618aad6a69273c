//! What the tests of the terminal have in common.
#![allow(dead_code)] // not each of them needs it all

pub mod parts;

use tikeburo::{Attributes, Cell, CursorShape, CursorVisibility, Options, Widths};
use tikeburo_terminal::{Modes, Terminal};

/// Bytes, the rows that a terminal shows then, without the blanks at their ends, and its cursor:
/// the column is the width where a wrap is pending.
pub type Case<'a> = (&'a str, &'a [&'a str], (usize, usize));

/// All that is seen of a terminal.
#[derive(PartialEq, Debug)]
pub struct Seen {
    cells: Vec<Vec<Cell>>,
    cursor: (usize, usize),
    visibility: CursorVisibility,
    shape: CursorShape,
    title: String,
    icon_title: String,
    modes: Modes,
    is_alternate: bool,
    scrollback: usize,
}

pub fn seen(terminal: &Terminal) -> Seen {
    let surface = terminal.surface();
    let rows = surface.rows();
    Seen {
        cells: rows
            .map(|row| row.cells().map(Result::unwrap).collect())
            .collect(),
        cursor: surface.cursor_position(),
        visibility: surface.cursor_visibility(),
        shape: surface.cursor_shape(),
        title: surface.title().unwrap(),
        icon_title: terminal.icon_title().into(),
        modes: *terminal.modes(),
        is_alternate: terminal.is_alternate_screen(),
        scrollback: terminal.scrollback().map_or(0, |lines| lines.len()),
    }
}

/// A terminal of this size that was fed these parts.
pub fn fed<'a>(
    (width, height): (usize, usize),
    widths: Widths,
    parts: impl IntoIterator<Item = &'a [u8]>,
) -> Terminal {
    let options = Options::new().widths(widths);
    let mut terminal = Terminal::with_options(width, height, options).unwrap();
    for part in parts {
        terminal.feed(part).unwrap();
    }
    terminal
}

/// A terminal that was fed these bytes. It shows the same, and reports the same, wherever they are
/// cut in two, and byte by byte.
pub fn fed_however(size: (usize, usize), text: impl AsRef<[u8]>) -> Terminal {
    let bytes = text.as_ref();
    let whole = fed(size, Widths::Unicode, [bytes]);
    let mut twin = fed(size, Widths::Unicode, [bytes]);
    let (shown, reports) = (seen(&whole), twin.take_reports());
    let cuts = (0..=bytes.len()).map(|at| bytes.split_at(at));
    let each: Vec<_> = bytes.chunks(1).collect();
    let parts = cuts
        .map(|(first, second)| vec![first, second])
        .chain([each]);
    for parts in parts {
        let lengths: Vec<_> = parts.iter().map(|part| part.len()).take(2).collect();
        let mut cut = fed(size, Widths::Unicode, parts);
        let name = format!("{:?} as {lengths:?}", String::from_utf8_lossy(bytes));
        assert_eq!(seen(&cut), shown, "{name}");
        assert_eq!(cut.take_reports(), reports, "{name}");
        assert_eq!(cut.unknown_count(), whole.unknown_count(), "{name}");
    }
    whole
}

/// The rows that it shows, without the blanks at their ends.
pub fn rows(terminal: &Terminal) -> Vec<String> {
    let rows = terminal.surface().rows().map(|row| row.text().unwrap());
    rows.map(|row| row.trim_end().to_string()).collect()
}

/// The attributes of a cell.
pub fn attributes(terminal: &Terminal, column: usize, row: usize) -> Attributes {
    let cell = terminal.surface().row(row).cell(column).unwrap();
    cell.attrs().clone()
}

/// Checks cases on a terminal of this size. All sequences are known.
pub fn check(size: (usize, usize), cases: &[Case<'_>]) {
    for (bytes, wanted, cursor) in cases {
        let terminal = fed_however(size, bytes);
        assert_eq!(rows(&terminal), *wanted, "{bytes:?}");
        assert_eq!(terminal.surface().cursor_position(), *cursor, "{bytes:?}");
        assert_eq!(terminal.unknown_count(), 0, "{bytes:?}");
    }
}

/// What is reported for these bytes, on 10 columns and 4 rows.
pub fn reported(bytes: &str) -> String {
    let mut terminal = fed((10, 4), Widths::Unicode, [bytes.as_bytes()]);
    String::from_utf8(terminal.take_reports()).unwrap()
}
