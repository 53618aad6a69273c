//! Lists of changes do what the changes in them do.

use tikeburo::{
    AttributeChange, Attributes, Blink, Cell, Change, Changes, ColorAttribute, CursorShape,
    CursorVisibility, Error, Hyperlink, Intensity, LineAttribute, Position, RgbColor, Surface,
    Underline,
};

const GREEN: ColorAttribute = ColorAttribute::PaletteIndex(2);
const ORANGE: ColorAttribute =
    ColorAttribute::TrueColorWithPaletteFallback(RgbColor::new_8bpc(255, 128, 0), 9);

fn heading() -> Attributes {
    Attributes {
        intensity: Intensity::Bold,
        underline: Underline::Curly,
        overline: true,
        background: ORANGE,
        hyperlink: Some(Hyperlink::new_with_id("uri:か", "か7")),
        ..Attributes::default()
    }
}

/// All calls, and the change that each stands for.
fn all() -> (Changes, Vec<Change>) {
    use AttributeChange as To;
    use Position::{Absolute, EndRelative, Relative};
    let mut list = Changes::new();
    list.text("ascii\r\nか\t").text("か").pen(&heading());
    list.text("\ttab").position(EndRelative(3), Relative(-1));
    list.move_to(2, 1).move_by(-1, 300).text("あa\r\nb");
    list.attribute(&To::Hyperlink(Some(Hyperlink::new("uri:b"))));
    list.intensity(Intensity::Half).underline(Underline::Dashed);
    list.blink(Blink::Rapid).italic(true).reverse(true);
    list.strikethrough(true).invisible(true).text("x");
    list.foreground(GREEN).background(ORANGE).link("uri:c");
    list.text("linked").link_with_id("uri:c", "か").text("too");
    list.attribute(&To::Hyperlink(Some(Hyperlink::new_with_id("uri:d", "8"))));
    list.text("as well").no_link().text("\u{1f600}");
    list.clear_to_end_of_line(GREEN).scroll_up(1, 3, 1);
    list.scroll_down(0, 2, usize::MAX).title("notes か");
    list.cursor_visibility(CursorVisibility::Hidden);
    list.cursor_shape(CursorShape::SteadyBar);
    list.cursor_color(ORANGE);
    list.line_attribute(LineAttribute::DoubleWidthLine);
    let changes = vec![
        "ascii\r\nか\t".into(),
        "か".into(),
        Change::AllAttributes(heading()),
        "\ttab".into(),
        moved(EndRelative(3), Relative(-1)),
        moved(Absolute(2), Absolute(1)),
        moved(Relative(-1), Relative(300)),
        "あa\r\nb".into(),
        To::Hyperlink(Some(Hyperlink::new("uri:b"))).into(),
        To::Intensity(Intensity::Half).into(),
        To::Underline(Underline::Dashed).into(),
        To::Blink(Blink::Rapid).into(),
        To::Italic(true).into(),
        To::Reverse(true).into(),
        To::StrikeThrough(true).into(),
        To::Invisible(true).into(),
        "x".into(),
        To::Foreground(GREEN).into(),
        To::Background(ORANGE).into(),
        To::Hyperlink(Some(Hyperlink::new("uri:c"))).into(),
        "linked".into(),
        To::Hyperlink(Some(Hyperlink::new_with_id("uri:c", "か"))).into(),
        "too".into(),
        To::Hyperlink(Some(Hyperlink::new_with_id("uri:d", "8"))).into(),
        "as well".into(),
        To::Hyperlink(None).into(),
        "\u{1f600}".into(),
        Change::ClearToEndOfLine(GREEN),
        Change::ScrollRegionUp {
            first_row: 1,
            region_size: 3,
            scroll_count: 1,
        },
        Change::ScrollRegionDown {
            first_row: 0,
            region_size: 2,
            scroll_count: usize::MAX,
        },
        Change::Title("notes か".into()),
        Change::CursorVisibility(CursorVisibility::Hidden),
        Change::CursorShape(CursorShape::SteadyBar),
        Change::CursorColor(ORANGE),
        Change::LineAttribute(LineAttribute::DoubleWidthLine),
    ];
    (list, changes)
}

fn moved(x: Position, y: Position) -> Change {
    Change::CursorPosition { x, y }
}

/// All that is seen of a surface, and its number.
fn seen(surface: &Surface) -> (Vec<Vec<Cell>>, (usize, usize), String, usize) {
    let cells = |row: tikeburo::Row<'_>| row.into_iter().map(Result::unwrap).collect();
    (
        surface.into_iter().map(cells).collect(),
        surface.cursor_position(),
        surface.title().unwrap(),
        surface.current_seqno(),
    )
}

#[test]
fn each_call_appends_what_it_says() {
    let (list, changes) = all();
    assert_eq!(list.len(), changes.len());
    assert_eq!(list, changes.iter().collect());
    assert_eq!(list, changes.into_iter().collect());
}

#[test]
fn a_list_does_what_its_changes_do() {
    let (list, changes) = all();
    for size in [(9, 4), (80, 24), (1, 4)] {
        let [mut by_list, mut by_slice, mut by_one] =
            [0; 3].map(|_| Surface::new(size.0, size.1).unwrap());
        for _ in 0..2 {
            let number = by_list.add(&list).unwrap();
            assert_eq!(by_slice.add_changes(&changes), Ok(number));
            for change in &changes {
                by_one.add_change(change.clone()).unwrap();
            }
            assert_eq!(seen(&by_list), seen(&by_slice));
            assert_eq!(seen(&by_list), seen(&by_one));
        }
    }
}

#[test]
fn clears_do_what_their_changes_do() {
    check_clear(Changes::clear_screen, Change::ClearScreen);
    check_clear(Changes::clear_to_end_of_line, Change::ClearToEndOfLine);
    check_clear(Changes::clear_to_end_of_screen, Change::ClearToEndOfScreen);
}

fn check_clear(
    append: fn(&mut Changes, ColorAttribute) -> &mut Changes,
    change: fn(ColorAttribute) -> Change,
) {
    let mut list = Changes::new();
    append(list.text("abcdefgh").move_to(1, 1), ORANGE);
    let place = moved(Position::Absolute(1), Position::Absolute(1));
    let changes = ["abcdefgh".into(), place, change(ORANGE)];
    let [mut by_list, mut by_slice] = [0; 2].map(|_| Surface::new(3, 3).unwrap());
    by_list.add(&list).unwrap();
    by_slice.add_changes(&changes).unwrap();
    assert_eq!(seen(&by_list), seen(&by_slice));
}

#[test]
fn numbers_are_those_of_a_slice() {
    let mut surface = Surface::new(4, 1).unwrap();
    let mut list = Changes::new();
    assert_eq!(surface.add(&list), Ok(0));
    list.text("a").text("か").text("b");
    assert_eq!(surface.add(&list), Ok(3));
    assert_eq!(surface.current_seqno(), 3);
    assert_eq!(surface.add(&list), Ok(5));
    assert_eq!(surface.add(&Changes::new()), Ok(5));
    assert_eq!(surface.current_seqno(), 6);
}

#[test]
fn a_scroll_past_the_last_row_refuses_the_list() {
    let mut surface = Surface::new(4, 2).unwrap();
    for (first, rows, fits) in [
        (0, 2, true),
        (2, 0, true),
        (1, 2, false),
        (3, 0, false),
        (1, usize::MAX, false),
        (usize::MAX, 1, false),
    ] {
        let before = seen(&surface);
        let mut list = Changes::new();
        list.text("か").scroll_down(first, rows, 1);
        let outcome = surface.add(&list);
        if fits {
            assert!(outcome.is_ok());
        } else {
            assert_eq!(outcome, Err(Error::ScrollRegion));
            assert_eq!(seen(&surface), before);
        }
    }
}

#[test]
fn a_list_is_used_again() {
    let mut surface = Surface::new(8, 2).unwrap();
    let mut list = Changes::new();
    for done in [0, 50, 100] {
        list.clear();
        write!(list.move_to(0, 0), "{done:>3} か").unwrap();
        surface.add(&list).unwrap();
        assert_eq!(list.len(), 2);
    }
    assert_eq!(surface.row(0).text().unwrap().trim_end(), "100 か");
    assert_eq!(format!("{list:?}"), "Changes { len: 2, .. }");
}

#[test]
fn a_pen_is_set_where_it_may_differ() {
    let pen = Attributes {
        italic: true,
        ..Attributes::default()
    };
    let default = ColorAttribute::Default;
    let changers: [fn(&mut Changes) -> &mut Changes; 9] = [
        |changes| changes.italic(false),
        |changes| changes.link("か"),
        |changes| changes.no_link(),
        |changes| changes.pen(&Attributes::default()),
        |changes| changes.clear_screen(ColorAttribute::Default),
        |changes| changes.clear_to_end_of_line(ColorAttribute::Default),
        |changes| changes.clear_to_end_of_screen(ColorAttribute::Default),
        |changes| changes.push(&Change::Attribute(AttributeChange::Italic(false))),
        |changes| changes.push(&Change::AllAttributes(Attributes::default())),
    ];
    for change in changers {
        let mut changes = Changes::new();
        changes
            .use_pen(&pen)
            .text("x")
            .use_pen(&pen)
            .title("x")
            .use_pen(&pen);
        assert_eq!(changes.len(), 3);
        change(&mut changes).use_pen(&pen).use_pen(&pen);
        assert_eq!(changes.len(), 5);
        changes.clear_columns(2, default).clear_columns(2, default);
        assert_eq!(changes.len(), 8);
        changes.clear();
        assert_eq!(changes.use_pen(&pen).len(), 1);
    }
}

#[test]
fn a_pen_that_is_used_is_the_whole_one() {
    let [red, green] = [1, 2].map(ColorAttribute::PaletteIndex);
    let mut pens = vec![Attributes::default(), heading()];
    pens.push(Attributes {
        hyperlink: Some(Hyperlink::new_with_id("uri", "7")),
        ..Attributes::default()
    });
    for number in 0..16 {
        let chosen = |bit| number & bit != 0;
        pens.push(Attributes {
            intensity: if chosen(1) {
                Intensity::Bold
            } else {
                Intensity::Half
            },
            foreground: if chosen(2) { red } else { ORANGE },
            background: if chosen(4) {
                green
            } else {
                ColorAttribute::Default
            },
            hyperlink: chosen(8).then(|| Hyperlink::new("uri")),
            ..Attributes::default()
        });
    }
    for first in &pens {
        for second in &pens {
            let [mut used, mut whole] = [Changes::new(), Changes::new()];
            used.use_pen(first).text("a").use_pen(second).text("b");
            used.clear_to_end_of_line(green).use_pen(first).text("c");
            whole.pen(first).text("a").pen(second).text("b");
            whole.clear_to_end_of_line(green).pen(first).text("c");
            let [mut by_used, mut by_whole] = [0; 2].map(|_| Surface::new(8, 1).unwrap());
            by_used.add(&used.iter().collect()).unwrap();
            by_whole.add(&whole).unwrap();
            assert_eq!(seen(&by_used).0, seen(&by_whole).0);
            assert_eq!(by_used.pen(), by_whole.pen());
        }
    }
}
