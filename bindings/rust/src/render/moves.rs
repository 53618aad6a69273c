//! The shortest sequences that move a cursor.

/// Where a terminal's cursor is.
#[derive(Clone, Copy, PartialEq, Eq, Debug, Default)]
pub(super) enum Place {
    /// Anywhere.
    #[default]
    Unknown,
    /// Somewhere on this row, as where a wrap is pending.
    Row(usize),
    /// At this column and row.
    At(usize, usize),
}

/// The shortest sequence that moves the cursor to a column and a row. A line feed goes from the
/// first column to the first column, so that it does the same with and without a carriage return.
pub(super) fn shortest(from: Place, column: usize, row: usize) -> String {
    let absolute = match (column, row) {
        (0, 0) => "\x1b[H".to_string(),
        (0, _) => format!("\x1b[{}H", row + 1),
        (_, 0) => format!("\x1b[;{}H", column + 1),
        _ => format!("\x1b[{};{}H", row + 1, column + 1),
    };
    let (here, at) = match from {
        Place::Unknown => return absolute,
        Place::Row(row) => (None, row),
        Place::At(column, row) => (Some(column), row),
    };
    let mut moves = vec![along_row(here, column) + &along_column(at, row), absolute];
    if row > at {
        let back = if here == Some(0) { "" } else { "\r" };
        let down = "\n".repeat((row - at).min(moves[0].len()));
        if down.len() == row - at {
            moves.push([back, &down].concat() + &along_row(Some(0), column));
        }
    }
    moves
        .into_iter()
        .min_by_key(String::len)
        .unwrap_or_default()
}

/// Moves on a row, from a column that may be unknown.
fn along_row(from: Option<usize>, to: usize) -> String {
    if from == Some(to) {
        return String::new();
    }
    if to == 0 {
        return "\r".into();
    }
    let absolute = format!("\x1b[{}G", to + 1);
    let relative = match from {
        None => return absolute,
        Some(from) if from < to => by(to - from, 'C'),
        Some(from) if from - to <= 3 => "\x08".repeat(from - to),
        Some(from) => by(from - to, 'D'),
    };
    shorter(relative, absolute)
}

/// Moves on a column.
fn along_column(from: usize, to: usize) -> String {
    let relative = match from {
        _ if from == to => return String::new(),
        _ if from < to => by(to - from, 'B'),
        _ => by(from - to, 'A'),
    };
    let absolute = if to == 0 {
        "\x1b[d".into()
    } else {
        format!("\x1b[{}d", to + 1)
    };
    shorter(relative, absolute)
}

/// The sequence of this code for this many columns or rows.
pub(super) fn by(count: usize, code: char) -> String {
    if count == 1 {
        format!("\x1b[{code}")
    } else {
        format!("\x1b[{count}{code}")
    }
}

/// The first one, unless the second one is shorter.
fn shorter(one: String, other: String) -> String {
    if other.len() < one.len() {
        other
    } else {
        one
    }
}

#[cfg(test)]
mod tests {
    use super::Place::{At, Row, Unknown};
    use super::*;

    #[test]
    fn moves_are_short() {
        for (from, column, row, wanted) in [
            (Unknown, 0, 0, "\x1b[H"),
            (Unknown, 0, 4, "\x1b[5H"),
            (Unknown, 4, 0, "\x1b[;5H"),
            (Unknown, 4, 9, "\x1b[10;5H"),
            (At(4, 9), 4, 9, ""),
            (At(4, 9), 0, 9, "\r"),
            (At(4, 9), 5, 9, "\x1b[C"),
            (At(4, 9), 8, 9, "\x1b[4C"),
            (At(4, 9), 3, 9, "\x08"),
            (At(4, 9), 1, 9, "\x08\x08\x08"),
            (At(9, 9), 4, 9, "\x1b[5D"),
            (At(90, 9), 4, 9, "\x1b[5G"),
            (At(4, 9), 4, 8, "\x1b[A"),
            (At(4, 9), 4, 0, "\x1b[d"),
            (At(4, 9), 4, 10, "\x1b[B"),
            (At(4, 9), 4, 50, "\x1b[41B"),
            (At(4, 9), 5, 8, "\x1b[C\x1b[A"),
            (At(4, 9), 3, 8, "\x08\x1b[A"),
            (At(4, 9), 0, 10, "\r\n"),
            (At(0, 9), 0, 10, "\n"),
            (At(0, 9), 0, 12, "\n\n\n"),
            (At(4, 9), 0, 12, "\r\n\n\n"),
            (At(0, 9), 2, 10, "\n\x1b[2C"),
            (At(4, 9), 0, 50, "\x1b[51H"),
            (Row(9), 0, 9, "\r"),
            (Row(9), 7, 9, "\x1b[8G"),
            (Row(9), 0, 10, "\r\n"),
            (Row(9), 79, 8, "\x1b[9;80H"),
        ] {
            assert_eq!(
                shortest(from, column, row),
                wanted,
                "{from:?} {column} {row}"
            );
        }
    }
}
