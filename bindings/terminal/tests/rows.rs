//! Rows that scroll off a terminal, its other sizes, and its widths.

mod support;

use support::{fed, rows};
use tikeburo::{Error, RowBuffer, Widths};
use tikeburo_terminal::{wcwidth_widths, Terminal};

/// The texts of the rows that are kept, without the blanks at their ends.
fn kept(terminal: &Terminal) -> Vec<String> {
    let lines = terminal.scrollback().unwrap();
    let mut line = RowBuffer::new();
    let read = |index| {
        lines.read(index, &mut line).unwrap();
        line.text().trim_end().to_string()
    };
    (0..lines.len()).map(read).collect()
}

fn keeping(limit: usize, parts: &[&str]) -> Terminal {
    let mut terminal = Terminal::new(6, 3).unwrap();
    terminal.keep_scrollback(limit).unwrap();
    for part in parts {
        terminal.feed(part.as_bytes()).unwrap();
    }
    terminal
}

#[test]
fn what_scrolls_off_is_kept() {
    let bytes = "1\r\n2 か\r\n3\r\nabcdefgh\r\n\x1b[2S";
    for size in [1, 5, 64] {
        let mut terminal = keeping(9, &[]);
        for part in bytes.as_bytes().chunks(size) {
            terminal.feed(part).unwrap();
        }
        assert_eq!(kept(&terminal), ["1", "2 か", "3", "abcdef", "gh"]);
    }
}

#[test]
fn rows_of_the_main_screen_alone_are_kept() {
    let terminal = keeping(
        9,
        &["1\r\n2\r\n3\x1b[?1049h\r\na\r\nb\r\nc\r\n\x1b[?1049l\r\n4"],
    );
    assert_eq!(kept(&terminal), ["1"]);
    assert_eq!(rows(&terminal), ["2", "3", "4"]);
    // A region that begins with the first row scrolls off, too, and no other one.
    let terminal = keeping(9, &["1\r\n2\r\n3\x1b[1;2r\x1b[2H\n", "\x1b[2;3r\x1b[3H\n"]);
    assert_eq!(kept(&terminal), ["1"]);
    let terminal = keeping(9, &["1\r\n2\r\n3\r\n4\x1b[3J"]);
    assert_eq!(kept(&terminal), [""; 0]);
    assert_eq!(rows(&terminal), ["2", "3", "4"]);
}

#[test]
fn the_oldest_rows_go() {
    let numbers: String = (0..100).map(|number| format!("{number}\r\n")).collect();
    let terminal = keeping(10, &[&numbers]);
    let wanted: Vec<_> = (88..98).map(|number| number.to_string()).collect();
    assert_eq!(kept(&terminal), wanted);
    assert_eq!(rows(&terminal), ["98", "99", ""]);
    assert_eq!(kept(&keeping(0, &[&numbers])), [""; 0]);
}

#[test]
fn another_size_keeps_the_row_of_the_cursor() {
    let mut terminal = keeping(9, &["1\r\n2\r\n3abc"]);
    terminal.resize(3, 2).unwrap();
    assert_eq!(rows(&terminal), ["2", "3ab"]);
    assert_eq!(kept(&terminal), ["1"]);
    assert_eq!(terminal.surface().cursor_position(), (2, 1));
    terminal.resize(8, 4).unwrap();
    terminal.feed(b"x").unwrap();
    assert_eq!(rows(&terminal), ["2", "3ax", "", ""]);
    terminal.feed(b"\x1b[4H\n").unwrap(); // the margins are those of the screen
    assert_eq!(rows(&terminal), ["3ax", "", "", ""]);
    // A text that was up to the right edge goes on after it.
    let mut terminal = keeping(9, &["abcdef"]);
    terminal.resize(8, 3).unwrap();
    terminal.feed(b"gh\x1b[?1049hx").unwrap();
    terminal.resize(9, 2).unwrap();
    terminal.feed(b"\x1b[?1049l").unwrap();
    assert_eq!(rows(&terminal), ["abcdefgh", ""]);
    for wrong in [(0, 1), (1, 0), (65536, 1), (1, 65536)] {
        assert_eq!(terminal.resize(wrong.0, wrong.1), Err(Error::Range));
        assert_eq!(Terminal::new(wrong.0, wrong.1).map(drop), Err(Error::Range));
    }
}

#[test]
fn another_size_keeps_the_hidden_row_of_the_cursor() {
    let mut terminal = keeping(9, &["1\r\n2\r\n3\x1b[?1049h\x1b[Hx"]);
    terminal.resize(6, 2).unwrap();
    assert_eq!(rows(&terminal), ["x", ""]);
    terminal.feed(b"\x1b[?1049l!").unwrap();
    assert_eq!(rows(&terminal), ["2", "3!"]);
    assert_eq!(kept(&terminal), ["1"]);
}

#[test]
fn tiny_screens_show_what_they_can() {
    for bytes in [
        "abか\tc\x1b[Zd\x1b[5@\x1b[5P\x1b[L\x1b[Me\u{301}\r\n\x1bM\x1b#8",
        "か\u{301}か",
    ] {
        for size in [(1, 1), (1, 3), (2, 1)] {
            let whole = fed(size, Widths::Unicode, [bytes.as_bytes()]);
            let cut = fed(size, Widths::Unicode, bytes.as_bytes().chunks(1));
            assert_eq!(rows(&whole), rows(&cut), "{bytes:?}");
        }
    }
    assert_eq!(
        rows(&fed((1, 1), Widths::Unicode, ["aか".as_bytes()])),
        ["a"]
    );
}

#[test]
fn programs_count_the_columns_of_characters() {
    let width = |widths, text: &str| {
        let terminal = fed((20, 1), widths, [text.as_bytes()]);
        terminal.surface().cursor_position().0
    };
    let wcwidth = wcwidth_widths().unwrap();
    let cases = [
        ("plain か", 8, 8),
        ("☂\u{fe0f}", 2, 1),
        ("☂", 1, 1),
        ("🇩🇪", 2, 2),
        ("🙂", 2, 2),
        ("e\u{301}", 1, 1),
        ("👩\u{200d}🚀", 2, 2),
    ];
    for (text, unicode, counted) in cases {
        assert_eq!(width(Widths::Unicode, text), unicode, "{text}");
        assert_eq!(width(wcwidth, text), counted, "{text}");
    }
    assert_eq!(width(Widths::OneColumn, "か☂\u{fe0f}e\u{301}x"), 4);
}

/// The rows of a terminal of 6 columns and 3 rows, which is fed the parts.
fn shown(keeps: bool, parts: &[&str]) -> Vec<String> {
    let mut terminal = Terminal::new(6, 3).unwrap();
    if keeps {
        terminal.keep_scrollback(1000).unwrap();
    }
    for part in parts {
        terminal.feed(part.as_bytes()).unwrap();
    }
    rows(&terminal)
}

#[test]
fn rows_that_scroll_off_at_once_leave_what_they_set() {
    let lines: String = (0..100).map(|number| format!("{number}\r\n")).collect();
    let before = "abc\r\n\x1b[31mdef\x1b[2;2r\x1b[H\x1b[L\x1b[r\x1b[3H";
    for keeps in [false, true] {
        assert_eq!(shown(keeps, &[before, &lines]), ["98", "99", ""]);
        assert_eq!(shown(keeps, &[&lines, "\x1b[H\x1b[Mx"]), ["x9", "", ""]);
        assert_eq!(
            shown(keeps, &[&(lines.clone() + "\x1b[H\x1b[2Lx")]),
            ["x", "", "98"]
        );
        assert_eq!(
            shown(keeps, &[&(lines.clone() + "\x1b[2Ja\x1b[Hb")]),
            ["b", "", "a"]
        );
        assert_eq!(shown(keeps, &[&"\n".repeat(50), "x"]), ["", "", "x"]);
        let wrapped = shown(keeps, &[&"abcdefgh".repeat(90)]);
        assert_eq!(wrapped, ["ghabcd", "efghab", "cdefgh"]);
    }
}
