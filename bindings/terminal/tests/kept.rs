//! What a terminal keeps beside its rows: tab stops, screens, titles, links, modes, and what it
//! reports.

mod support;

use support::{attributes, check, fed, fed_however, reported, rows};
use tikeburo::{ColorAttribute, CursorShape, CursorVisibility, Hyperlink, RgbColor, Widths};
use tikeburo_terminal::{Colors, MouseEncoding, MouseTracking, Terminal};

const SIZE: (usize, usize) = (10, 3);

#[test]
fn tabs_stop_where_they_are_set() {
    let cases = [
        ("\tx", 8),
        ("\x1b[2Ix", 16),
        ("\x1b[9I\x1b[0Dx", 28),
        ("\x1b[20G\x1b[Zx", 16),
        ("\x1b[20G\x1b[2Zx", 8),
        ("\x1b[20G\x1b[65535Zx", 0),
        ("\x1b[9G\x1b[Zx", 0),
        ("\x1b[4G\x1bH\x1b[G\tx", 3),
        ("\x1b[9G\x1b[g\x1b[G\tx", 16),
        ("\x1b[9G\x1b[0g\x1b[G\tx", 16),
        ("\x1b[3g\tx", 29),
        ("\x1b[3g\x1bc\tx", 8),
        ("\x1b[65535Ix", 29),
    ];
    for (bytes, column) in cases {
        let wanted = format!("{:column$}x", "");
        check((30, 1), &[(bytes, &[&wanted], (column + 1, 0))]);
    }
}

#[test]
fn the_alternate_screen_has_rows_of_its_own() {
    check(
        SIZE,
        &[
            ("abc\x1b[?1049hxyz", &["   xyz", "", ""], (6, 0)),
            ("abc\x1b[?1049hxyz\x1b[?1049l", &["abc", "", ""], (3, 0)),
            (
                "abc\x1b[?1049h\x1b[Hx\x1b[?1049l\x1b[?1049h",
                &["", "", ""],
                (3, 0),
            ),
            // A second one clears, too, and the cursor that is saved is that of the main screen.
            (
                "abc\x1b[?1049hxyz\x1b[?1049hd",
                &["      d", "", ""],
                (7, 0),
            ),
            (
                "abc\x1b[?1049hxyz\x1b[?1049h\x1b[?1049ld",
                &["abcd", "", ""],
                (4, 0),
            ),
            ("abc\x1b[?47h\x1b[Hx\x1b[?47ly", &["ayc", "", ""], (2, 0)),
            (
                "abc\x1b[?47h\x1b[Hx\x1b[?47ly\x1b[?47hz",
                &["x z", "", ""],
                (3, 0),
            ),
            ("abc\x1b[?1047h\x1b[Hx\x1b[?1047l", &["abc", "", ""], (1, 0)),
            (
                "abc\x1b[?1047h\x1b[Hx\x1b[?1047l\x1b[?1047h",
                &["", "", ""],
                (1, 0),
            ),
            ("\x1b[?47hold\x1b[?47l\x1b[?1049h", &["", "", ""], (3, 0)),
            (
                "ab\x1b[?1048h\x1b[3;3H\x1b[?1048lc",
                &["abc", "", ""],
                (3, 0),
            ),
            ("abc\x1b[?1049lx", &["xbc", "", ""], (1, 0)),
            (
                "ab\x1b7\x1b[?47h\x1b[3Hc\x1b7\x1b[?47l\x1b8d",
                &["abd", "", ""],
                (3, 0),
            ),
            (
                "ab\x1b7\x1b[?47h\x1b[3Hc\x1b7\x1b[?47l\x1b[?47h\x1b8d",
                &["", "", "cd"],
                (2, 2),
            ),
        ],
    );
    let mut terminal = Terminal::new(10, 2).unwrap();
    assert!(!terminal.is_alternate_screen());
    terminal
        .feed(b"\x1b[1;31mred\x1b[?1049h\x1b[0;44mblue")
        .unwrap();
    assert!(terminal.is_alternate_screen());
    terminal.feed(b"\x1b[?1049lx").unwrap();
    assert_eq!(attributes(&terminal, 3, 0), attributes(&terminal, 0, 0));
}

#[test]
fn marks_join_the_cell_before_them() {
    check(
        (6, 2),
        &[
            ("e\u{301}x", &["e\u{301}x", ""], (2, 0)),
            ("abcdee\u{301}", &["abcdee\u{301}", ""], (6, 0)),
            ("abcdee\u{301}x", &["abcdee\u{301}", "x"], (1, 1)),
            ("e\x1b[1m\u{301}x", &["e\u{301}x", ""], (2, 0)),
            ("ex\x1b[D\u{301}y", &["e\u{301}y", ""], (2, 0)),
            ("か\x1b[m\u{3099}x", &["か\u{3099}x", ""], (3, 0)),
            ("\x1b[C\u{301}x", &[" \u{301}x", ""], (2, 0)),
            ("\u{301}x", &["x", ""], (1, 0)),
            ("a\u{200b}b\u{feff}c", &["abc", ""], (3, 0)),
            ("👩\u{200d}🚀x", &["👩\u{200d}🚀x", ""], (3, 0)),
            ("🇩🇪🇫🇷x", &["🇩🇪🇫🇷x", ""], (5, 0)),
            ("☂\u{fe0f}x", &["☂\u{fe0f}x", ""], (3, 0)),
            ("각x각", &["각x각", ""], (5, 0)),
            (
                "\u{1100}\u{1161}\u{11a8}x",
                &["\u{1100}\u{1161}\u{11a8}x", ""],
                (3, 0),
            ),
            ("abcd👍🏽x", &["abcd👍🏽", "x"], (1, 1)),
        ],
    );
    // The cell keeps its attributes.
    let terminal = fed_however((6, 1), "\x1b[31me\x1b[1;32m\u{301}x");
    assert_eq!(
        attributes(&terminal, 0, 0).foreground,
        ColorAttribute::PaletteIndex(1)
    );
    assert_eq!(
        attributes(&terminal, 1, 0).foreground,
        ColorAttribute::PaletteIndex(2)
    );
}

#[test]
fn a_grapheme_has_128_bytes_at_most() {
    let marks = "\u{301}".repeat(200);
    let terminal = fed((6, 1), Widths::Unicode, [format!("e{marks}x").as_bytes()]);
    let first = terminal.surface().row(0).cell(0).unwrap();
    assert_eq!(first.str().len(), 127);
    assert_eq!(terminal.surface().cursor_position(), (2, 0));
}

#[test]
fn titles_are_set_and_saved() {
    for end in ["\x07", "\x1b\\"] {
        let titles = |bytes: &str| {
            let terminal = fed_however(SIZE, bytes.replace('$', end));
            assert_eq!(terminal.unknown_count(), 0);
            let title = terminal.surface().title().unwrap();
            (title, terminal.icon_title().to_string())
        };
        let both = |window: &str, icon: &str| (window.to_string(), icon.to_string());
        assert_eq!(titles("\x1b]2;notes ✓$"), both("notes ✓", ""));
        assert_eq!(titles("\x1b]1;icon$"), both("", "icon"));
        assert_eq!(titles("\x1b]0;a;b$"), both("a;b", "a;b"));
        assert_eq!(
            titles("\x1b]0;a$\x1b[22;0;0t\x1b]0;b$\x1b[23;0;0t"),
            both("a", "a")
        );
        assert_eq!(
            titles("\x1b]0;a$\x1b[22t\x1b]0;b$\x1b[23;2t"),
            both("a", "b")
        );
        assert_eq!(
            titles("\x1b]0;a$\x1b[22t\x1b]0;b$\x1b[23;1t\x1b[23t"),
            both("b", "a")
        );
        assert_eq!(titles("\x1b]0;a$\x1bc"), both("", ""));
    }
    let long = format!("\x1b]2;{}\x07", "か".repeat(400));
    let title = fed(SIZE, Widths::Unicode, [long.as_bytes()])
        .surface()
        .title();
    assert_eq!(title.unwrap(), "か".repeat(341)); // 1,023 bytes
    let cancelled = fed_however(SIZE, "\x1b]2;a\x07\x1b]2;b\x18c");
    assert_eq!(cancelled.surface().title().unwrap(), "a");
    assert_eq!(rows(&cancelled)[0], "c");
}

#[test]
fn links_are_given_to_texts() {
    let link = |bytes: &str, column| attributes(&fed_however(SIZE, bytes), column, 0).hyperlink;
    let wanted = Some(Hyperlink::new("https://example.org/?a;b"));
    let bytes = "x\x1b]8;;https://example.org/?a;b\x1b\\y\x1b[1mz\x1b[m!\x1b]8;;\x1b\\.";
    assert_eq!(link(bytes, 0), None);
    assert_eq!(
        [1, 2, 3].map(|column| link(bytes, column)),
        [0; 3].map(|_| wanted.clone())
    );
    assert_eq!(link(bytes, 4), None);
    for (params, id) in [
        ("id=1", "1"),
        ("id=1:x=y", "1"),
        ("x=id=2:id=か=:y=", "か="),
        ("id=1:id=2", "2"),
        ("id=", ""),
        ("x=y:ID=1:xid=2:id", ""),
    ] {
        let bytes = format!("\x1b]8;{params};https://example.org/?a;b\x07y");
        let wanted = Hyperlink::new_with_id("https://example.org/?a;b", id);
        assert_eq!(link(&bytes, 0), Some(wanted), "{params}");
    }
    let again = "\x1b]8;id=1;u\x07x\x1b]8;;u\x07y";
    assert_eq!(link(again, 1), Some(Hyperlink::new("u")));
    let linked = |length: usize| {
        let bytes = format!("\x1b]8;;{}\x07x", "u".repeat(length));
        attributes(&fed(SIZE, Widths::Unicode, [bytes.as_bytes()]), 0, 0).hyperlink
    };
    assert!(linked(1020).is_some()); // 1,023 bytes with what stands before
    assert_eq!(linked(1021), None);
    assert_eq!(link(&format!("\x1b]8;;u{}\x07x", ";u".repeat(20)), 0), None);
}

#[test]
fn the_cursor_has_a_shape_and_is_hidden() {
    let shape = |bytes: &str| fed_however(SIZE, bytes).surface().cursor_shape();
    assert_eq!(shape(""), CursorShape::Default);
    assert_eq!(shape("\x1b[5 q"), CursorShape::BlinkingBar);
    assert_eq!(shape("\x1b[2 q"), CursorShape::SteadyBlock);
    assert_eq!(shape("\x1b[2 q\x1b[ q"), CursorShape::Default);
    assert_eq!(shape("\x1b[2 q\x1b[9 q"), CursorShape::SteadyBlock);
    assert_eq!(shape("\x1b[2 q\x1bc"), CursorShape::Default);
    let visibility = |bytes: &str| fed_however(SIZE, bytes).surface().cursor_visibility();
    assert_eq!(visibility("\x1b[?25l"), CursorVisibility::Hidden);
    assert_eq!(
        visibility("\x1b[?25l\x1b[?12;25h"),
        CursorVisibility::Visible
    );
    assert_eq!(visibility("\x1b[?25l\x1b[!p"), CursorVisibility::Visible);
    assert_eq!(visibility("\x1b[?25l\x1bc"), CursorVisibility::Visible);
}

#[test]
fn modes_are_kept() {
    let modes = |bytes: &str| *fed_however(SIZE, bytes).modes();
    let usual = modes("");
    assert!(usual.auto_wrap && !usual.insert && !usual.bracketed_paste);
    let set = modes("\x1b[?1;5;1004;2004;2026;1007h\x1b=\x1b[?1003h\x1b[?1006h");
    assert!(set.application_cursor_keys && set.reverse_screen && set.focus_reports);
    assert!(set.bracketed_paste && set.synchronized_output && set.alternate_scroll);
    assert!(set.application_keypad);
    assert_eq!(set.mouse_tracking, MouseTracking::Moves);
    assert_eq!(set.mouse_encoding, MouseEncoding::Sgr);
    assert_eq!(modes("\x1b[?1;5;1004;2004h\x1b=\x1b[?1002h\x1bc"), usual);
    assert!(!modes("\x1b=\x1b>").application_keypad);
    let soft = modes("\x1b[?1h\x1b=\x1b[4h\x1b[?7l\x1b[?2004h\x1b[!p");
    assert!(!soft.application_cursor_keys && !soft.application_keypad && !soft.insert);
    assert!(soft.auto_wrap && soft.bracketed_paste);
    // What terminfo's entries send at first and at last.
    let strings = "\x1b[!p\x1b[?3;4l\x1b[4l\x1b>\x1b[34h\x1b[34l\x1b[?1034h\x1b[?1034l\x1b)0\x1b[i";
    assert_eq!(fed_however(SIZE, strings).unknown_count(), 0);
    check(SIZE, &[("a\x1b[20hb\nc", &["ab", "c", ""], (1, 1))]);
}

#[test]
fn what_is_asked_for_is_reported() {
    let cases = [
        ("\x1b[c", "\x1b[?62;22c"),
        ("\x1b[0c\x1bZ", "\x1b[?62;22c\x1b[?62;22c"),
        ("\x1b[>c", "\x1b[>1;0;0c"),
        ("\x1b[=c", "\x1bP!|00000000\x1b\\"),
        ("\x1b[5n", "\x1b[0n"),
        ("\x1b[6n", "\x1b[1;1R"),
        ("ab\x1b[3;4H\x1b[6n", "\x1b[3;4R"),
        ("abcdefghij\x1b[6n", "\x1b[1;10R"),
        ("か\x1b[6n", "\x1b[1;3R"),
        ("abcdefghijk\x1b[?6n", "\x1b[?2;2R"),
        ("\x1b[2;3r\x1b[?6h\x1b[2;4H\x1b[6n", "\x1b[2;4R"),
        ("\x1b[18t", "\x1b[8;4;10t"),
        ("\x1b[?2004$p", "\x1b[?2004;2$y"),
        ("\x1b[?2004h\x1b[?2004$p", "\x1b[?2004;1$y"),
        (
            "\x1b[?6h\x1b[?6$p\x1b[?25$p\x1b[?1049$p",
            "\x1b[?6;1$y\x1b[?25;1$y\x1b[?1049;2$y",
        ),
        ("\x1b[?12345$p", "\x1b[?12345;0$y"),
        ("\x1b[4$p\x1b[99$p", "\x1b[4;2$y\x1b[99;0$y"),
        ("\x1b[7n\x1b[?5n", ""),
    ];
    for (bytes, wanted) in cases {
        assert_eq!(reported(bytes), wanted, "{bytes:?}");
    }
    assert!(reported("\x1b[>q").starts_with("\x1bP>|tikeburo("));
    let many = "\x1b[c".repeat(10_000);
    let reports = reported(&many);
    assert!(reports.len() <= 1 << 16 && reports.ends_with('c'));
}

#[test]
fn colours_are_reported_and_set() {
    let cases = [
        ("\x1b]4;1;?\x07", "\x1b]4;1;rgb:cdcd/0000/0000\x07"),
        ("\x1b]4;1;?\x1b\\", "\x1b]4;1;rgb:cdcd/0000/0000\x1b\\"),
        ("\x1b]10;?\x07", "\x1b]10;rgb:e5e5/e5e5/e5e5\x07"),
        ("\x1b]11;?\x07", "\x1b]11;rgb:0000/0000/0000\x07"),
        ("\x1b]10;#ff8000;?\x07", "\x1b]11;rgb:0000/0000/0000\x07"),
        (
            "\x1b]10;#ff8000\x07\x1b]10;?\x07",
            "\x1b]10;rgb:ffff/8080/0000\x07",
        ),
        (
            "\x1b]12;rgb:1/2/3\x07\x1b]12;?\x07",
            "\x1b]12;rgb:1111/2222/3333\x07",
        ),
        (
            "\x1b]4;7;rgb:FF/00/80;8;?\x1b\\\x1b]4;7;?\x1b\\",
            "\x1b]4;8;rgb:7f7f/7f7f/7f7f\x1b\\\x1b]4;7;rgb:ffff/0000/8080\x1b\\",
        ),
        (
            "\x1b]4;7;#000\x07\x1b]104\x07\x1b]4;7;?\x07",
            "\x1b]4;7;rgb:e5e5/e5e5/e5e5\x07",
        ),
        (
            "\x1b]4;7;#000\x07\x1b]104;7\x07\x1b]4;7;?\x07",
            "\x1b]4;7;rgb:e5e5/e5e5/e5e5\x07",
        ),
        (
            "\x1b]11;#fff\x07\x1b]111\x07\x1b]11;?\x07",
            "\x1b]11;rgb:0000/0000/0000\x07",
        ),
        ("\x1b]4;256;?\x07\x1b]4;x;?\x07\x1b]10;red\x07", ""),
    ];
    for (bytes, wanted) in cases {
        assert_eq!(reported(bytes), wanted, "{bytes:?}");
    }
    let mut terminal = Terminal::new(10, 1).unwrap();
    let foreground = RgbColor::new_8bpc(1, 2, 3);
    terminal.set_colors(Colors {
        foreground,
        ..Colors::default()
    });
    terminal
        .feed(b"\x1b]10;#ffffff\x07\x1b]12;#102030\x07")
        .unwrap();
    let cursor = RgbColor::new_8bpc(16, 32, 48);
    assert_eq!(terminal.surface().cursor_color(), cursor.into());
    assert_eq!(
        terminal.colors().foreground,
        RgbColor::new_8bpc(255, 255, 255)
    );
    terminal.feed(b"\x1b]110\x07\x1b]112\x07").unwrap();
    assert_eq!(terminal.colors().foreground, foreground);
    assert_eq!(terminal.surface().cursor_color(), ColorAttribute::Default);
}

#[test]
fn what_is_unknown_is_counted() {
    let cases = [
        ("\x1b[1;2v", 1),
        ("\x1b[?9999h", 1),
        ("\x1b[?1;9999h", 1),
        ("\x1b[9999h", 1),
        ("\x1b[>4;2m", 1),
        ("\x1b[?u", 1),
        ("\x1b[5J\x1b[5K", 2),
        ("\x1b]9999;x\x07", 1),
        ("\x1b]52;c;eA==\x07", 1),
        ("\x1bPq\x1b\\", 1),
        ("\x1b#3", 1),
        ("\x1b~", 1),
        (&format!("\x1b[{}H", "1;".repeat(40)), 1),
    ];
    for (bytes, count) in cases {
        let terminal = fed_however(SIZE, format!("a{bytes}b"));
        assert_eq!(terminal.unknown_count(), count, "{bytes:?}");
        assert_eq!(rows(&terminal)[0], "ab", "{bytes:?}");
    }
}

#[test]
fn bells_are_counted() {
    let mut terminal = Terminal::new(10, 1).unwrap();
    terminal.feed(b"\x07a\x07\x1bg\x1b]2;title\x07").unwrap();
    assert_eq!([terminal.take_bells(), terminal.take_bells()], [3, 0]);
}
