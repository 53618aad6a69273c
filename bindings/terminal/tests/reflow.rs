//! Lines that are wrapped anew where a terminal takes another width.

mod support;

use support::{attributes, rows};
use tikeburo::{ColorAttribute, Hyperlink, RowBuffer};
use tikeburo_terminal::Terminal;

fn reflowing(text: &str) -> Terminal {
    let mut terminal = Terminal::new(6, 3).unwrap();
    terminal.keep_scrollback(1000).unwrap();
    terminal.set_reflow(true);
    terminal.feed(text.as_bytes()).unwrap();
    terminal
}

/// The rows, and the cursor, once a terminal of 6 columns and 3 rows takes another size.
fn resized(text: &str, (width, height): (usize, usize)) -> (Vec<String>, (usize, usize)) {
    let mut terminal = reflowing(text);
    terminal.resize(width, height).unwrap();
    (rows(&terminal), terminal.surface().cursor_position())
}

#[test]
fn lines_are_wrapped_anew() {
    type Size = (usize, usize);
    let cases: [(&str, Size, &[&str], Size); 12] = [
        (
            "abcdefghij\r\nxyz",
            (10, 3),
            &["abcdefghij", "xyz", ""],
            (3, 1),
        ),
        ("abcdefghij\r\nxyz", (4, 3), &["efgh", "ij", "xyz"], (3, 2)),
        (
            "abcdefghij\r\nxyz",
            (4, 5),
            &["abcd", "efgh", "ij", "xyz", ""],
            (3, 3),
        ),
        ("abcdef\r\nghi", (10, 3), &["abcdef", "ghi", ""], (3, 1)),
        ("abcdef", (10, 3), &["abcdef", "", ""], (6, 0)),
        ("abcdef", (3, 3), &["abc", "def", ""], (3, 1)),
        ("abcdeかx", (10, 3), &["abcdeかx", "", ""], (8, 0)),
        ("かかか", (5, 3), &["かか", "か", ""], (2, 1)),
        (
            "one two three",
            (20, 3),
            &["one two three", "", ""],
            (13, 0),
        ),
        ("abc\r\n\r\nx", (10, 3), &["abc", "", "x"], (1, 2)),
        (
            "abcdefghij\x1b[1;3H",
            (10, 3),
            &["abcdefghij", "", ""],
            (2, 0),
        ),
        (
            "abcdefg\x1b[44m\x1b[mhij",
            (10, 3),
            &["abcdefghij", "", ""],
            (10, 0),
        ),
    ];
    for (text, size, wanted, cursor) in cases {
        assert_eq!(resized(text, size).0, wanted, "{text:?} in {size:?}");
        assert_eq!(resized(text, size).1, cursor, "{text:?} in {size:?}");
    }
}

#[test]
fn what_has_scrolled_off_is_wrapped_too() {
    let mut terminal = reflowing("abcdefghij\r\nklmnopqrst\r\nxyz");
    assert_eq!(rows(&terminal), ["klmnop", "qrst", "xyz"]);
    assert_eq!(terminal.scrollback().unwrap().len(), 2);
    terminal.resize(10, 3).unwrap();
    assert_eq!(rows(&terminal), ["klmnopqrst", "xyz", ""]);
    let mut line = RowBuffer::new();
    let lines = terminal.scrollback().unwrap();
    lines.read(0, &mut line).unwrap();
    assert_eq!((lines.len(), line.text().trim_end()), (1, "abcdefghij"));
    terminal.resize(5, 3).unwrap();
    assert_eq!(rows(&terminal), ["klmno", "pqrst", "xyz"]);
    assert_eq!(terminal.scrollback().unwrap().len(), 2);
}

#[test]
fn cells_keep_what_they_have() {
    let mut terminal = reflowing("abc\x1b[31m\x1b]8;id=7;uri\x07def\x1b[32mghi\x1b[m\x1b]8;;\x07x");
    assert!(attributes(&terminal, 5, 0).wrapped);
    terminal.resize(12, 3).unwrap();
    assert_eq!(rows(&terminal)[0], "abcdefghix");
    let shown: Vec<_> = (0..10).map(|x| attributes(&terminal, x, 0)).collect();
    assert!(shown.iter().all(|attributes| !attributes.wrapped));
    let colors = [5, 6, 9].map(|x: usize| shown[x].foreground);
    let palette = ColorAttribute::PaletteIndex;
    assert_eq!(colors, [palette(1), palette(2), ColorAttribute::Default]);
    let links = [2, 5, 6, 9].map(|x: usize| shown[x].hyperlink.clone());
    let link = Some(Hyperlink::new_with_id("uri", "7"));
    assert_eq!(links, [None, link.clone(), link, None]);
}

#[test]
fn the_main_screen_is_wrapped_behind_the_alternate_one() {
    let mut terminal = reflowing("abcdefgh\x1b[?1049h\x1b[Hijklmnop");
    terminal.resize(10, 3).unwrap();
    assert_eq!(rows(&terminal), ["ijklmn", "op", ""]);
    terminal.feed(b"\x1b[?1049l!").unwrap();
    assert_eq!(rows(&terminal), ["abcdefgh!", "", ""]);
}

#[test]
fn no_text_is_lost() {
    let mut random = 7_usize;
    let mut below = |limit: usize| {
        random = random
            .wrapping_mul(6364136223846793005)
            .wrapping_add(1442695040888963407);
        (random >> 33) % limit
    };
    for _ in 0..40 {
        let mut terminal = reflowing("");
        let mut wanted = String::new();
        for _ in 0..40 {
            let word = ["word", "か漢字", "e\u{301}x", "long-word-that-wraps"][below(4)]
                .repeat(1 + below(3));
            wanted.push_str(&word);
            let end = if below(2) == 0 { "\r\n" } else { "" };
            terminal.feed(format!("{word}{end}").as_bytes()).unwrap();
            if below(6) == 0 {
                terminal.resize(2 + below(20), 1 + below(6)).unwrap();
            }
        }
        let mut line = RowBuffer::new();
        let lines = terminal.scrollback().unwrap();
        let mut shown = String::new();
        for index in 0..lines.len() {
            lines.read(index, &mut line).unwrap();
            shown.push_str(line.text());
        }
        shown.extend(rows(&terminal));
        assert_eq!(shown.replace(' ', ""), wanted);
    }
}
