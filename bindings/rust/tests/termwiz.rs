//! What termwiz's own tests of surfaces find, of what is shown, cells, numbers and answers. Where
//! they compare lists of changes, what those draw is compared; tests of images have no place here.

extern crate tikeburo as termwiz;

use termwiz::cell::{AttributeChange, Cell, CellAttributes, Intensity};
use termwiz::color::{AnsiColor, ColorAttribute};
use termwiz::surface::{Change, CursorVisibility, Position, Surface};
use termwiz::{graphemes, Ask, Client, Screen, Widths};
use Position::{Absolute, Relative};

const DEFAULT: ColorAttribute = ColorAttribute::Default;
const RED: ColorAttribute = ColorAttribute::PaletteIndex(9);
/// The cursor is hidden, and the screen cleared: what each repaint begins with.
const BEGIN: [Change; 2] = [
    Change::CursorVisibility(CursorVisibility::Hidden),
    Change::ClearScreen(DEFAULT),
];
const SHOW: Change = Change::CursorVisibility(CursorVisibility::Visible);

fn text(text: &str) -> Change {
    Change::from(text)
}

fn go(x: Position, y: Position) -> Change {
    Change::CursorPosition { x, y }
}

fn at(x: usize, y: usize) -> Change {
    go(Absolute(x), Absolute(y))
}

fn intensity(intensity: Intensity) -> Change {
    AttributeChange::Intensity(intensity).into()
}

fn pen(attributes: &CellAttributes) -> Change {
    Change::AllAttributes(attributes.clone())
}

fn surface((width, height): (usize, usize), changes: &[Change]) -> Surface {
    let mut surface = Surface::new(width, height).unwrap();
    surface.add_changes(changes).unwrap();
    surface
}

/// The texts of all rows, each with '|' after it.
fn rows(screen: &Screen) -> String {
    screen.screen_chars_to_string().unwrap().replace('\n', "|")
}

fn cells(screen: &Screen) -> Vec<Vec<Cell>> {
    let row = |row: termwiz::Row<'_>| row.cells().map(Result::unwrap).collect();
    screen.rows().map(row).collect()
}

/// The text and the attributes of each cell of a row.
fn row_of(screen: &Screen, row: usize) -> Vec<(String, CellAttributes)> {
    let cells = &cells(screen)[row];
    let parts = |cell: &Cell| (cell.str().to_string(), cell.attrs().clone());
    cells.iter().map(parts).collect()
}

fn assert_same(screen: &Screen, other: &Screen) {
    assert_eq!(cells(screen), cells(other));
    assert_eq!(screen.dimensions(), other.dimensions());
    assert_eq!(screen.cursor_position(), other.cursor_position());
    assert_eq!(screen.cursor_visibility(), other.cursor_visibility());
}

/// Makes the changes of these steps, and compares the rows after each.
fn check_rows(size: (usize, usize), steps: &[(Change, &str)]) {
    let mut surface = surface(size, &[]);
    for (change, wanted) in steps {
        surface.add_change(change.clone()).unwrap();
        assert_eq!(rows(&surface), *wanted, "after {change:?}");
    }
}

/// The screen that three of the cases begin with.
fn scrolled() -> Surface {
    surface((4, 3), &["w00t", "foo", "baar", "baz"].map(text))
}

#[test]
fn a_new_surface_is_blank() {
    assert_eq!(rows(&surface((4, 3), &[])), "    |    |    |");
}

#[test]
fn texts_go_on_where_the_one_before_ended() {
    check_rows(
        (4, 3),
        &[
            (text("w00t"), "w00t|    |    |"),
            (text("foo"), "w00t|foo |    |"),
            (text("baar"), "w00t|foob|aar |"),
            (text("baz"), "foob|aarb|az  |"),
        ],
    );
    let breaks = text("bloo\rwat\n hey\r\nho");
    check_rows((4, 4), &[(breaks, "wato|    |hey |ho  |")]);
}

#[test]
fn a_clear_goes_home() {
    let mut surface = surface((2, 2), &[text("hello")]);
    assert_eq!(surface.cursor_position(), (1, 1));
    surface.add_change(Change::ClearScreen(DEFAULT)).unwrap();
    assert_eq!(surface.cursor_position(), (0, 0));
    assert_eq!(rows(&surface), "  |  |");
}

#[test]
fn a_clear_ends_with_the_line_or_the_screen() {
    let line = Change::ClearToEndOfLine(DEFAULT);
    let screen = Change::ClearToEndOfScreen(DEFAULT);
    let full = "hel|wow|foo|";
    check_rows(
        (3, 3),
        &[
            (text("helwowfoo"), full),
            (line.clone(), full),
            (at(0, 0), full),
            (line.clone(), "   |wow|foo|"),
            (at(1, 1), "   |wow|foo|"),
            (line, "   |w|foo|"),
        ],
    );
    check_rows(
        (3, 3),
        &[
            (text("helwowfoo"), full),
            (screen.clone(), full),
            (at(1, 1), full),
            (screen, "hel|w|   |"),
        ],
    );
    check_rows(
        (3, 3),
        &[
            (Change::ClearScreen(AnsiColor::Red.into()), "   |   |   |"),
            (text("helwowfoo"), full),
            (at(1, 1), full),
            (Change::ClearToEndOfScreen(RED), "hel|w  |   |"),
        ],
    );
}

#[test]
fn moves_go_to_a_place_or_by_a_distance() {
    let last = "    |    |   X|";
    check_rows(
        (4, 3),
        &[
            (at(3, 2), "    |    |    |"),
            (text("X"), last),
            (go(Relative(-2), Relative(-1)), last),
            (text("-"), "    |  - |   X|"),
            (go(Relative(1), Relative(-1)), "    |  - |   X|"),
            (text("-"), "   -|  - |   X|"),
        ],
    );
}

#[test]
fn a_wide_cell_is_overwritten_whole() {
    check_rows(
        (4, 1),
        &[
            (text("🤷12"), "🤷12|"),
            (at(1, 0), "🤷12|"),
            (text("a🤷"), " a🤷|"),
            (at(2, 0), " a🤷|"),
            (text("x"), " ax |"),
        ],
    );
}

#[test]
fn a_character_of_no_width_joins_or_takes_no_column() {
    check_rows((4, 1), &[(text("A\u{200b}B"), "A\u{200b}B |")]);
}

#[test]
fn a_text_has_the_attributes_that_were_set_before_it() {
    let changes = [text("n"), intensity(Intensity::Bold), text("b")];
    let surface = surface((3, 1), &changes);
    let plain = CellAttributes::default();
    let bold = CellAttributes::default()
        .set_intensity(Intensity::Bold)
        .clone();
    let wanted = [("n", plain.clone()), ("b", bold), (" ", plain)];
    assert_eq!(
        row_of(&surface, 0),
        wanted.map(|(text, attributes)| (text.to_string(), attributes))
    );
}

/// A surface, and the changes of the repaint that it is due.
fn repaints() -> Vec<(Surface, Vec<Change>)> {
    let red = CellAttributes::default().set_background(RED).clone();
    let maroon = CellAttributes::default()
        .set_foreground(AnsiColor::Maroon)
        .clone();
    let next_row = go(Absolute(0), Relative(1));
    let cleared = |color| {
        [
            text("helwowfoo"),
            at(1, 1),
            Change::ClearToEndOfScreen(color),
        ]
    };
    let reds = [Change::ClearScreen(RED), pen(&red)];
    let background = AttributeChange::Background(AnsiColor::Red.into());
    let foreground = AttributeChange::Foreground(AnsiColor::Maroon.into());
    vec![
        (surface((4, 3), &[]), vec![]),
        (
            surface((3, 3), &cleared(DEFAULT)),
            vec![text("hel"), next_row.clone(), text("w"), at(1, 1)],
        ),
        (
            surface((3, 3), &[&reds[..1], &cleared(RED)].concat()),
            vec![
                pen(&red),
                text("hel"),
                next_row.clone(),
                text("w"),
                Change::ClearToEndOfScreen(RED),
                at(1, 1),
            ],
        ),
        (
            surface((3, 3), &[background.into(), text("111   333")]),
            vec![
                pen(&red),
                text("111"),
                next_row.clone(),
                Change::ClearToEndOfLine(RED),
                next_row,
                text("333"),
                at(3, 2),
            ],
        ),
        (surface((4, 3), &[at(3, 2)]), vec![at(3, 2)]),
        (
            surface((2, 2), &[foreground.into(), text("ab")]),
            vec![pen(&maroon), text("ab"), at(2, 0)],
        ),
        (resized((4, 3), &[text("a")]), vec![text("a"), at(1, 0)]),
        (
            resized((4, 4), &[text(" a"), at(3, 3)]),
            vec![text(" a"), at(1, 1)],
        ),
    ]
}

/// A surface that took the size 2 by 2.
fn resized(size: (usize, usize), changes: &[Change]) -> Surface {
    let mut surface = surface(size, changes);
    surface.resize(2, 2).unwrap();
    surface
}

#[test]
fn a_repaint_draws_what_is_shown() {
    for (mut shown, repaint) in repaints() {
        let all = [&BEGIN[..], &repaint, &[SHOW]].concat();
        let mut drawn = surface(shown.dimensions(), &all);
        assert_same(&drawn, &shown);
        let mut client = Client::new().unwrap();
        client
            .feed(&shown.respond(&Ask::default()).unwrap())
            .unwrap();
        assert_same(client.screen(), &shown);
        drawn.add_change("x").unwrap(); // by the pen that each has
        shown.add_change("x").unwrap();
        assert_same(&drawn, &shown);
    }
}

#[test]
fn a_resize_keeps_the_cursor_inside() {
    let mut surface = surface((4, 4), &[text(" a"), at(3, 3)]);
    assert_eq!(surface.cursor_position(), (3, 3));
    surface.resize(2, 2).unwrap();
    assert_eq!(surface.cursor_position(), (1, 1));
}

#[test]
fn adding_nothing_returns_the_number_of_the_last() {
    let mut surface = surface((2, 2), &[]);
    assert_eq!(surface.add_change("foo"), Ok(0));
    assert_eq!(surface.add_changes(&[]), Ok(0));
    assert_eq!(surface.add_changes(&[text("a")]), Ok(1));
}

/// The ask of a client that shows what this number names of the surface.
fn ask(surface: &Surface, number: u8) -> Ask {
    let mut bytes = surface.current_ask().into_bytes();
    *bytes.last_mut().unwrap() = number;
    bytes.into()
}

#[test]
fn a_number_that_is_not_reached_gets_a_repaint() {
    let mut surface = surface((4, 3), &[]);
    assert_eq!(surface.current_seqno(), 0);
    let first = surface.respond(&ask(&surface, 0)).unwrap();
    let later = surface.respond(&ask(&surface, 1)).unwrap();
    assert_eq!(first, later);
}

#[test]
fn a_delta_has_what_was_done_since() {
    let mut surface = surface((4, 3), &[]);
    let mut client = Client::new().unwrap();
    for text in ["a", "b"] {
        let number = surface.add_change(text).unwrap();
        client
            .feed(&surface.respond(&client.ask().unwrap()).unwrap())
            .unwrap();
        assert_eq!(surface.current_seqno(), number + 1);
        assert!(!surface.has_changes(number + 1));
        assert_same(client.screen(), &surface);
    }
    for (weight, text) in [(Intensity::Bold, "c"), (Intensity::Normal, "d")] {
        surface.add_change(intensity(weight)).unwrap();
        surface.add_change(text).unwrap();
    }
    assert!(surface.has_changes(2));
    let since = client.ask().unwrap();
    let delta = surface.respond(&since).unwrap();
    for _ in 0..3 {
        assert_eq!(surface.respond(&since), Ok(delta.clone()));
    }
    let mut late = Client::new().unwrap(); // to which the delta says nothing
    late.feed(&delta).unwrap();
    assert_eq!(late.ask().unwrap(), Ask::default());
    client.feed(&delta).unwrap();
    assert_same(client.screen(), &surface);
    assert_eq!(rows(client.screen()), "abcd|    |    |");
}

#[test]
fn a_region_shows_what_another_does() {
    let mut screen = scrolled();
    assert_eq!(rows(&screen), "foob|aarb|az  |");
    let mut sample = surface((2, 2), &[]);
    sample.draw_from_screen(&screen, 0, 0).unwrap();
    assert_eq!(rows(&sample), "fo|aa|");
    let bold = [at(1, 1), intensity(Intensity::Bold), text("XO")];
    screen.add_changes(&bold).unwrap();
    screen.copy_region(1, 1, 2, 2, 0, 0).unwrap();
    sample.draw_from_screen(&screen, 0, 0).unwrap();
    assert_eq!(rows(&sample), "XO|z |");
    let is_bold = |cell: &(String, CellAttributes)| cell.1.intensity() == Intensity::Bold;
    assert!(row_of(&sample, 0).iter().all(is_bold));
    assert!(!row_of(&sample, 1).iter().any(is_bold));
}

#[test]
fn surfaces_are_drawn_beside_one_another() {
    let mut screen = surface((4, 4), &[]);
    let first = surface((2, 2), &[text("1234")]);
    let second = surface((2, 2), &[text("XYZA")]);
    screen.draw_from_screen(&first, 0, 0).unwrap();
    screen.draw_from_screen(&second, 2, 2).unwrap();
    assert_eq!(rows(&screen), "12  |34  |  XY|  ZA|");
}

#[test]
fn a_draw_leaves_cursor_and_pen() {
    let mut screen = surface((4, 4), &[text("A")]);
    let blue = surface((2, 2), &[Change::ClearScreen(AnsiColor::Blue.into())]);
    screen.draw_from_screen(&blue, 2, 2).unwrap();
    assert_eq!(rows(&screen), "A   |    |    |    |");
    let plain = (" ".to_string(), CellAttributes::default());
    let mut colored = plain.clone();
    colored.1.set_background(AnsiColor::Blue);
    for row in 0..4 {
        let cells = row_of(&screen, row);
        let right = if row < 2 { &plain } else { &colored };
        assert_eq!(cells[1..], [&plain, right, right].map(Clone::clone));
        let first = if row == 0 { "A" } else { " " };
        assert_eq!(cells[0], (first.to_string(), plain.1.clone()));
    }
    assert_eq!(screen.cursor_position(), (1, 0));
    screen.add_change("B").unwrap();
    assert_eq!(rows(&screen), "AB  |    |    |    |");
    assert_eq!(row_of(&screen, 0)[1], ("B".to_string(), plain.1));
}

#[test]
fn a_copy_may_lie_over_what_it_copies() {
    let mut screen = scrolled();
    screen.copy_region(0, 0, 2, 2, 2, 1).unwrap();
    assert_eq!(rows(&screen), "foob|aafo|azaa|");
}

#[test]
fn a_draw_compares_columns() {
    let mut wide = surface((4, 1), &[text("か a")]);
    assert_eq!(rows(&wide), "か a|");
    let mut drawn = surface((4, 1), &[]);
    drawn.draw_from_screen(&wide, 0, 0).unwrap();
    assert_eq!(rows(&drawn), "か a|");
    drawn.draw_from_screen(&surface((4, 1), &[]), 0, 0).unwrap();
    assert_eq!(rows(&drawn), "    |");
    let narrow = surface((4, 1), &[text("abcd")]);
    wide.draw_from_screen(&narrow, 0, 0).unwrap();
    assert_eq!(rows(&wide), "abcd|");
}

/// Behind a wide cell no move is needed: one move, the pen and the text are drawn, and then cursor
/// and pen are set again.
#[test]
fn a_wide_cell_takes_no_move() {
    let wide = surface((3, 1), &[text("かa")]);
    let mut drawn = surface((3, 1), &[]);
    drawn.draw_from_screen(&wide, 0, 0).unwrap();
    assert_eq!(drawn.current_seqno(), 3 + 2);
}

#[test]
fn control_characters_are_spaces() {
    check_rows((4, 1), &[(text("a\tb\u{7f}"), "a b |")]);
}

#[test]
fn graphemes_have_their_columns() {
    for (text, wanted) in [
        ("\u{1f9b6}", &[2][..]),
        (
            "\u{1f469}\u{1f3ff}\u{200d}\u{1f91d}\u{200d}\u{1f469}\u{1f3fc}",
            &[2],
        ),
        ("\u{1f9cf}\u{200d}\u{2642}\u{fe0f}", &[2]),
        ("\u{1f57a}", &[2]),
        ("\u{270a}", &[2]),
        ("\u{f005}", &[1]),
        (
            "\u{1f3f4}\u{e0067}\u{e0062}\u{e0065}\u{e006e}\u{e0067}\u{e007f}",
            &[2],
        ),
        ("x\u{3000}x", &[1, 2, 1]),
        ("\u{270c}", &[1]),
        ("\u{270c}\u{fe0e}", &[1]),
        ("\u{a9}\u{fe0f}", &[2]),
        ("\u{a9}", &[1]),
        ("\u{1112}\u{1161}\u{11ab}", &[2]),
    ] {
        let pieces = graphemes(text, Widths::Unicode).unwrap();
        let columns: Vec<_> = pieces.iter().map(|(_, columns)| *columns).collect();
        assert_eq!(columns, wanted, "{text}");
    }
}
