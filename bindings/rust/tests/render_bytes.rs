//! The bytes that a renderer writes for each kind of change.

use tikeburo::render::{Colors, Error, Options, Renderer};
use tikeburo::{
    Attributes, Blink, Changes, ColorAttribute, CursorShape, CursorVisibility, Intensity,
    LineAttribute, RgbColor, Surface, Underline,
};

const BLUE: ColorAttribute = ColorAttribute::PaletteIndex(4);
const ORANGE: RgbColor = RgbColor::new_8bpc(255, 128, 0);

/// What is written for changes, where those before them are shown already.
fn written_by(
    options: Options,
    before: impl FnOnce(&mut Changes) -> &mut Changes,
    change: impl FnOnce(&mut Changes) -> &mut Changes,
) -> String {
    let mut renderer = Renderer::new(options);
    let mut out = Vec::new();
    renderer
        .changes(&mut out, before(&mut Changes::new()))
        .unwrap();
    out.clear();
    renderer
        .changes(&mut out, change(&mut Changes::new()))
        .unwrap();
    String::from_utf8(out).unwrap()
}

/// What is written on a terminal of 10 columns and 4 rows.
fn written(
    before: impl FnOnce(&mut Changes) -> &mut Changes,
    change: impl FnOnce(&mut Changes) -> &mut Changes,
) -> String {
    written_by(Options::new(10, 4), before, change)
}

/// What is written where nothing was shown before.
fn first(change: impl FnOnce(&mut Changes) -> &mut Changes) -> String {
    written(|changes| changes, change)
}

#[test]
fn the_first_write_resets_the_terminal() {
    let mut renderer = Renderer::new(Options::new(10, 4));
    let mut out = Vec::new();
    renderer.changes(&mut out, &Changes::new()).unwrap();
    let reset = "\x1b\\\x1b[r\x1b]8;;\x1b\\\x1b[m\x1b[H\x1b[2J";
    assert_eq!(out, [reset, "\x1b[?25h"].concat().as_bytes());

    out.clear();
    renderer.changes(&mut out, &Changes::new()).unwrap();
    assert!(out.is_empty());

    renderer.reset();
    renderer
        .changes(&mut out, Changes::new().text("a"))
        .unwrap();
    let settings = "\x1b]112\x1b\\\x1b[0 q";
    let wanted = ["\x1b\\\x1b[r", settings, &reset[5..], "a\x1b[?25h"].concat();
    assert_eq!(out, wanted.as_bytes());
}

#[test]
fn texts_are_printed() {
    assert_eq!(first(|it| it.text("abc")), "abc");
    assert_eq!(first(|it| it.text("ab\r\ncd")), "ab\r\ncd");
    assert_eq!(first(|it| it.text("か漢e\u{301}")), "か漢e\u{301}");
    assert_eq!(first(|it| it.text("a\x07\tb\x7f")), "a  b\x1b[C");
    assert_eq!(first(|it| it.text("")), "");
}

#[test]
fn a_row_never_wraps_by_itself() {
    let full = "0123456789";
    assert_eq!(first(|it| it.text(full)), "0123456789\x1b[10G");
    assert_eq!(written(|it| it.text(full), |it| it.text("x")), "\r\nx");
    let long = "0123456789abc";
    assert_eq!(first(|it| it.text(long)), "0123456789\r\nabc");
}

#[test]
fn a_wide_text_that_begins_in_the_last_column_is_a_blank() {
    assert_eq!(first(|it| it.move_to(9, 0).text("か")), "\x1b[9C");
    let on_blue = first(|it| it.background(BLUE).move_to(9, 0).text("か"));
    assert_eq!(on_blue, "\x1b[9C\x1b[44m \x1b[10G");
    assert_eq!(first(|it| it.move_to(8, 0).text("か")), "\x1b[8Cか\x1b[10G");
}

#[test]
fn both_halves_of_a_wide_text_are_written_over() {
    assert_eq!(
        written(|it| it.text("か漢"), |it| it.move_to(1, 0).text("x")),
        "\r x"
    );
    assert_eq!(
        written(|it| it.text("か漢"), |it| it.move_to(0, 0).text("x")),
        "\rx \x08"
    );
    assert_eq!(
        written(|it| it.text("か漢"), |it| it.move_to(1, 0).text("字")),
        "\r 字 \x08"
    );
}

#[test]
fn texts_that_would_join_stand_apart() {
    assert_eq!(first(|it| it.text("\u{301}")), " \u{301}");
    assert_eq!(first(|it| it.text("a").text("\u{301}")), "a \u{301}");
    // One flag, and two letters in cells of their own.
    assert!(first(|it| it.text("🇩🇪")).contains("🇩🇪"));
    let letters = first(|it| it.text("🇩").text("🇪"));
    let apart = letters.contains("🇩\x1b[") && letters.contains("🇪");
    assert!(apart, "{letters:?}");
}

#[test]
fn a_text_that_terminals_measure_in_two_ways_has_room() {
    let rocket = "👩\u{200d}🚀";
    let wanted = format!("  \r{rocket}\x1b[3Gx");
    assert_eq!(
        first(|it| it.text(rocket).text("x")),
        format!("{wanted} \x08")
    );
    let at_the_end = first(|it| it.move_to(8, 0).text(rocket));
    let wanted = format!("\x1b[8C  \x1b[9G\x1b[?7l{rocket}\x1b[?7h\x1b[10G");
    assert_eq!(at_the_end, wanted);
}

#[test]
fn pens_are_set_by_what_differs() {
    let bold_red = Attributes {
        intensity: Intensity::Bold,
        foreground: ColorAttribute::PaletteIndex(1),
        ..Attributes::default()
    };
    let bold = Attributes {
        intensity: Intensity::Bold,
        ..Attributes::default()
    };
    let plain = Attributes::default();
    assert_eq!(
        first(|it| it
            .pen(&bold_red)
            .text("a")
            .pen(&bold)
            .text("b")
            .pen(&plain)
            .text("c")),
        "\x1b[1;31ma\x1b[39mb\x1b[mc"
    );
    // The blank between is as with any of these pens.
    assert_eq!(
        first(|it| it
            .pen(&bold_red)
            .text("a")
            .pen(&plain)
            .text(" ")
            .pen(&bold_red)
            .text("b")),
        "\x1b[1;31ma b"
    );
    assert_eq!(first(|it| it.pen(&bold_red)), "");
}

#[test]
fn each_attribute_is_set() {
    for (set, wanted) in [
        (
            (|it| it.intensity(Intensity::Half)) as fn(&mut Changes) -> &mut Changes,
            "2",
        ),
        (|it| it.intensity(Intensity::Bold), "1"),
        (|it| it.italic(true), "3"),
        (|it| it.underline(Underline::Single), "4"),
        (|it| it.underline(Underline::Double), "4:2"),
        (|it| it.underline(Underline::Curly), "4:3"),
        (|it| it.blink(Blink::Slow), "5"),
        (|it| it.blink(Blink::Rapid), "6"),
        (|it| it.reverse(true), "7"),
        (|it| it.invisible(true), "8"),
        (|it| it.strikethrough(true), "9"),
        (|it| it.foreground(BLUE), "34"),
        (|it| it.background(ORANGE.into()), "48;2;255;128;0"),
    ] {
        assert_eq!(first(|it| set(it).text("a")), format!("\x1b[{wanted}ma"));
    }
    let lines = Attributes {
        overline: true,
        underline: Underline::Dashed,
        underline_color: BLUE,
        ..Attributes::default()
    };
    assert_eq!(first(|it| it.pen(&lines).text("a")), "\x1b[4:5;53;58:5:4ma");
}

#[test]
fn colours_are_those_that_the_terminal_has() {
    let fallback = ColorAttribute::TrueColorWithPaletteFallback(ORANGE, 3);
    for (colors, wanted) in [
        (Colors::True, "\x1b[38;2;255;128;0ma\x1b[38;5;200mb"),
        (Colors::Indexed256, "\x1b[33ma\x1b[38;5;200mb"),
        (Colors::Indexed16, "\x1b[33ma\x1b[95mb"),
    ] {
        let options = Options::new(10, 4).colors(colors);
        let bytes = written_by(
            options,
            |it| it,
            |it| {
                it.foreground(fallback).text("a");
                it.foreground(ColorAttribute::PaletteIndex(200)).text("b")
            },
        );
        assert_eq!(bytes, wanted);
    }
    let options = Options::new(10, 4).styled_underlines(false);
    let bytes = written_by(
        options,
        |it| it,
        |it| it.underline(Underline::Curly).text("a"),
    );
    assert_eq!(bytes, "\x1b[4ma");
}

#[test]
fn links_are_opened_and_closed() {
    assert_eq!(
        first(|it| it.link("a").text("x").no_link().text("y")),
        "\x1b]8;id=e40c292c;a\x1b\\x\x1b]8;;\x1b\\y"
    );
    assert_eq!(
        first(|it| it.link_with_id("a", "7").text("x").link("a").text("y")),
        "\x1b]8;id=7;a\x1b\\x\x1b]8;id=e40c292c;a\x1b\\y"
    );
    assert_eq!(
        first(|it| it.link_with_id("a", "b:c;\x07か").text("x")),
        "\x1b]8;id=b%3Ac%3B%07%E3%81%8B;a\x1b\\x"
    );
    let encoded = first(|it| it.link("a b\x1b\\").text("x"));
    assert!(encoded.ends_with(";a%20b%1B\\\x1b\\x"), "{encoded:?}");
}

#[test]
fn moves_are_the_shortest() {
    assert_eq!(first(|it| it.move_to(3, 2)), "\x1b[3;4H");
    assert_eq!(
        written(|it| it.move_to(3, 2), |it| it.move_by(1, 1)),
        "\x1b[C\x1b[B"
    );
    assert_eq!(
        written(|it| it.move_to(3, 2), |it| it.move_by(-1, 0)),
        "\x08"
    );
    assert_eq!(
        written(|it| it.move_to(3, 2), |it| it.move_to(0, 3)),
        "\r\n"
    );
    assert_eq!(
        written(|it| it.move_to(3, 2), |it| it.move_to(0, 0)),
        "\x1b[H"
    );
    assert_eq!(
        written(|it| it.text("abc"), |it| it.move_by(1, 0).text("d")),
        " d"
    );
}

#[test]
fn what_is_shown_is_passed_by_texts() {
    // One that has fewer bytes than a move.
    let before = |it: &mut Changes| {
        it.text("abcdef").move_to(0, 0);
    };
    let bytes = written(
        |it| {
            before(it);
            it
        },
        |it| it.text("1").move_to(3, 0).text("2"),
    );
    assert_eq!(bytes, "1bc2");
    let bytes = written(
        |it| {
            before(it);
            it
        },
        |it| it.text("1").move_to(5, 0).text("2"),
    );
    assert_eq!(bytes, "1\x1b[4C2");
}

#[test]
fn clears_erase() {
    let default = ColorAttribute::Default;
    let shown = |it: &mut Changes| {
        it.text("abcdefgh\r\nb\r\nc").move_to(8, 0);
    };
    let cleared = |change: fn(&mut Changes) -> &mut Changes| {
        written(
            |it| {
                shown(it);
                it
            },
            change,
        )
    };
    assert_eq!(
        cleared(|it| it
            .move_to(2, 0)
            .clear_to_end_of_line(ColorAttribute::Default)),
        "\x1b[6D\x1b[K"
    );
    assert_eq!(
        cleared(|it| it.move_to(2, 0).clear_to_end_of_line(BLUE)),
        "\x1b[6D\x1b[44m\x1b[K"
    );
    assert_eq!(
        cleared(|it| it
            .move_to(6, 0)
            .clear_to_end_of_line(ColorAttribute::Default)),
        "\x08\x08\x1b[K"
    );
    assert_eq!(
        cleared(|it| it.move_to(1, 0).clear_columns(6, ColorAttribute::Default)),
        "\x1b[7D\x1b[6X\x1b[6C"
    );
    assert_eq!(
        cleared(|it| it
            .move_to(0, 1)
            .clear_to_end_of_screen(ColorAttribute::Default)),
        "\r\n\x1b[J"
    );
    assert_eq!(cleared(|it| it.clear_screen(BLUE)), "\r\x1b[44m\x1b[J");
    let options = Options::new(10, 4).erases_with_background(false);
    let bytes = written_by(
        options,
        |it| it.text("a"),
        |it| it.clear_to_end_of_line(BLUE),
    );
    assert_eq!(bytes, "\x1b[44m         \x1b[2G");
    let bytes = written_by(
        options,
        |it| it.text("abcdefgh"),
        |it| it.move_to(1, 0).clear_to_end_of_line(default),
    );
    assert_eq!(bytes, "\x1b[7D\x1b[K");
}

/// Eight rows of nine letters, and the cursor at the first one.
fn letters(it: &mut Changes) -> &mut Changes {
    for (row, letter) in ('a'..='h').enumerate() {
        it.move_to(0, row).text(&letter.to_string().repeat(9));
    }
    it.move_to(0, 0)
}

#[test]
fn rows_scroll() {
    let options = Options::new(10, 8);
    for (scroll, wanted) in [
        (
            (|it| it.scroll_up(2, 4, 1)) as fn(&mut Changes) -> &mut Changes,
            "\x1b[3;6r\n\n\x1b[M\x1b[r",
        ),
        (|it| it.scroll_down(2, 4, 1), "\x1b[3;6r\n\n\x1bM\x1b[r"),
        (|it| it.scroll_down(2, 4, 2), "\x1b[3;6r\n\n\x1b[2L\x1b[r"),
        (|it| it.scroll_up(0, 8, 1), "\x1b[M"),
        (|it| it.scroll_up(0, 8, 3), "\x1b[3M"),
        (|it| it.scroll_up(4, 4, 1), "\x1b[4B\x1b[M\x1b[d"),
        (|it| it.scroll_down(0, 8, 1), "\x1bM"),
        (|it| it.scroll_down(4, 4, 1), "\x1b[4B\x1b[L\x1b[d"),
        // A scroll that leaves nothing clears.
        (|it| it.scroll_up(0, 8, 8), "\x1b[J"),
        (|it| it.scroll_up(6, 2, 2), "\x1b[6B\x1b[J\x1b[d"),
    ] {
        let bytes = written_by(options, letters, scroll);
        assert_eq!(bytes, wanted);
    }
    // A line feed at the end scrolls.
    let bytes = written_by(
        options,
        |it| letters(it).move_to(9, 7),
        |it| it.text("\r\nnew"),
    );
    assert_eq!(bytes, "\r\nnew");
    // The rows that come in have no background.
    let bytes = written_by(
        options,
        |it| letters(it).move_to(9, 7).background(BLUE).text("x"),
        |it| it.text("\r\n"),
    );
    assert_eq!(bytes, "\x1b[m\r\n");
}

#[test]
fn the_cursor_is_set() {
    let hidden = |it: &mut Changes| {
        it.cursor_visibility(CursorVisibility::Hidden);
    };
    let hide = first(|it| {
        hidden(it);
        it.text("a")
    });
    assert_eq!(hide, "\x1b[?25la");
    let show = written(
        |it| {
            hidden(it);
            it
        },
        |it| it.cursor_visibility(CursorVisibility::Visible).text("a"),
    );
    assert_eq!(show, "a\x1b[?25h");
    assert_eq!(
        first(|it| it.cursor_shape(CursorShape::SteadyBar)),
        "\x1b[6 q"
    );
    assert_eq!(
        written(
            |it| it.cursor_shape(CursorShape::SteadyBar),
            |it| it.cursor_shape(CursorShape::Default)
        ),
        "\x1b[0 q"
    );
    assert_eq!(
        first(|it| it.cursor_color(ORANGE.into())),
        "\x1b]12;#ff8000\x1b\\"
    );
    assert_eq!(
        written(
            |it| it.cursor_color(BLUE),
            |it| it.cursor_color(ColorAttribute::Default)
        ),
        "\x1b]112\x1b\\"
    );
}

#[test]
fn titles_are_set() {
    let kept = "\x1b[22;2t";
    assert_eq!(
        first(|it| it.title("notes か")),
        format!("{kept}\x1b]2;notes か\x1b\\")
    );
    assert_eq!(
        written(|it| it.title("a"), |it| it.title("b")),
        "\x1b]2;b\x1b\\"
    );
    assert_eq!(
        written(|it| it.title("a"), |it| it.title("")),
        "\x1b]2;\x1b\\"
    );
    assert_eq!(written(|it| it.title("a"), |it| it.title("a")), "");
    let title = "a\x1b]2;\x07b\u{9c}\n";
    assert_eq!(
        first(|it| it.title(title)),
        format!("{kept}\x1b]2;a]2;b\x1b\\")
    );
}

#[test]
fn lines_are_large_where_that_is_chosen() {
    let large = LineAttribute::DoubleWidthLine;
    let options = Options::new(10, 4).line_attributes(true);
    let bytes = written_by(
        options,
        |it| it,
        |it| it.move_to(0, 1).line_attribute(large).text("ab"),
    );
    assert_eq!(bytes, "\x1b[2H\x1b#6ab\x1b[K");
    assert_eq!(first(|it| it.line_attribute(large).text("ab")), "ab");
}

#[test]
fn an_update_may_be_synchronized() {
    let options = Options::new(10, 4).synchronized(true);
    let bytes = written_by(options, |it| it, |it| it.text("a"));
    assert_eq!(bytes, "\x1b[?2026ha\x1b[?2026l");
    assert_eq!(written_by(options, |it| it, |it| it), "");
}

#[test]
fn the_end_leaves_the_terminal_as_it_was() {
    let mut renderer = Renderer::new(Options::new(10, 4));
    let mut changes = Changes::new();
    changes.italic(true).link("a").text("x").title("a");
    changes
        .cursor_shape(CursorShape::SteadyBar)
        .cursor_color(BLUE);
    changes.cursor_visibility(CursorVisibility::Hidden);
    renderer.changes(&mut Vec::new(), &changes).unwrap();
    let mut out = Vec::new();
    renderer.end(&mut out).unwrap();
    let wanted = "\x1b]8;;\x1b\\\x1b[m\x1b[0 q\x1b]112\x1b\\\x1b[23;2t\x1b[?25h";
    assert_eq!(out, wanted.as_bytes());

    let mut renderer = Renderer::new(Options::new(10, 4));
    renderer
        .changes(&mut Vec::new(), Changes::new().text("x"))
        .unwrap();
    out.clear();
    renderer.end(&mut out).unwrap();
    assert!(out.is_empty());
}

#[test]
fn refused_changes_leave_all_as_it_was() {
    let mut renderer = Renderer::new(Options::new(10, 4));
    let mut out = Vec::new();
    renderer
        .changes(&mut out, Changes::new().text("a"))
        .unwrap();
    out.clear();
    let refused = renderer.changes(&mut out, Changes::new().text("b").scroll_up(3, 2, 1));
    let refused = matches!(refused, Err(Error::Screen(tikeburo::Error::ScrollRegion)));
    assert!(refused && out.is_empty());
    renderer
        .changes(&mut out, Changes::new().text("c"))
        .unwrap();
    assert_eq!(out, b"c");
}

#[test]
fn another_screen_is_shown_in_its_place() {
    let mut surface = Surface::new(10, 4).unwrap();
    surface.add_change("one").unwrap();
    let mut renderer = Renderer::new(Options::new(10, 4));
    let mut out = Vec::new();
    renderer.show(&mut out, &surface).unwrap();
    out.clear();
    renderer
        .changes(&mut out, Changes::new().text("once"))
        .unwrap();
    assert_eq!(out, b"\x08ce");
    out.clear();
    renderer.show(&mut out, &surface).unwrap();
    assert_eq!(out, b"\x08\x08e \x08");
    out.clear();
    renderer.repaint(&mut out, &surface).unwrap();
    assert!(out.starts_with(b"\x1b\\") && out.ends_with(b"\x1b[2Jone\x1b[?25h"));
}
