//! Calls that take two screens take those that measure texts by the same widths.

use tikeburo::{
    Client, Error, Limits, Options, Screen, Surface, Viewer, WidthRange, WidthTable, Widths,
};

const fn range(first: char, last: char, columns: u8) -> WidthRange {
    WidthRange {
        first,
        last,
        columns,
    }
}

static RANGES: [WidthRange; 2] = [range('\u{300}', '\u{36f}', 0), range('…', '…', 2)];

/// Each choice of widths, of which the first two are the same.
fn choices() -> Vec<Widths> {
    let equal = RANGES.to_vec().leak();
    let narrow = vec![RANGES[0], range('…', '…', 1)].leak();
    let tables = [&RANGES[..], equal, narrow, &RANGES[1..], &[]];
    let mut choices: Vec<_> = tables
        .into_iter()
        .map(|ranges| Widths::Table(WidthTable::new(ranges).unwrap()))
        .collect();
    choices.extend([Widths::Unicode, Widths::OneColumn]);
    choices
}

fn printed(width: usize, height: usize, widths: Widths, text: &str) -> Surface {
    let options = Options::new().widths(widths);
    let mut surface = Surface::with_options(width, height, options).unwrap();
    surface.add_change(text).unwrap();
    surface
}

/// The rows, without the blanks at their ends.
fn rows(screen: &Screen) -> Vec<String> {
    let texts = screen.rows().map(|row| row.text().unwrap());
    texts.map(|text| text.trim_end().to_string()).collect()
}

/// A viewer and a client that show what the surface shows.
fn followers(surface: &mut Surface) -> (Viewer, Client) {
    let mut viewer = Viewer::new(surface).unwrap();
    viewer.follow(surface).unwrap();
    let mut client = Client::with_limits(surface.widths(), Limits::new()).unwrap();
    let answer = surface.respond(&client.ask().unwrap()).unwrap();
    client.feed(&answer).unwrap();
    (viewer, client)
}

#[test]
fn widths_are_those_of_what_is_shown() {
    for widths in choices() {
        let mut surface = printed(4, 1, widths, "a");
        let (viewer, client) = followers(&mut surface);
        let copy = Surface::copy_of(viewer.screen()).unwrap();
        for screen in [&*surface, viewer.screen(), client.screen(), &*copy] {
            assert_eq!(screen.widths(), widths);
        }
    }
    assert_eq!(Surface::new(1, 1).unwrap().widths(), Widths::Unicode);
    let client = Client::new().unwrap();
    assert_eq!(client.screen().widths(), Widths::Unicode);
}

/// Each call that takes a screen with a source: all take it, or refuse it and change nothing.
fn check(widths: Widths, source: &Screen, taken: Result<(), Error>) {
    let mut surface = printed(4, 2, widths, "ABCDEFG");
    let (mut viewer, _) = followers(&mut surface);
    assert_eq!(surface.diff_screens(source).map(drop), taken);
    assert_eq!(source.diff_screens(&surface).map(drop), taken);
    let region = viewer.screen().diff_region(0, 0, 2, 1, source, 1, 0);
    assert_eq!(region.map(drop), taken);
    assert_eq!(surface.draw_from_screen(source, 1, 0).map(drop), taken);
    let first = if taken.is_ok() { "AWXY" } else { "ABCD" };
    assert_eq!(rows(&surface), [first, "EFG"]);
    assert_eq!(viewer.follow(source), taken);
    let shown = if taken.is_ok() {
        vec!["WXYZ"]
    } else {
        vec!["ABCD", "EFG"]
    };
    assert_eq!(rows(viewer.screen()), shown);
    viewer.follow(&surface).unwrap();
    assert_eq!(rows(viewer.screen()), rows(&surface));
}

#[test]
fn two_screens_of_other_widths_are_refused() {
    for (one, own) in choices().into_iter().enumerate() {
        let mut source = printed(4, 1, own, "WXYZ");
        let (viewer, client) = followers(&mut source);
        for (other, widths) in choices().into_iter().enumerate() {
            let is_same = one == other || one + other == 1;
            assert_eq!(own == widths, is_same);
            let taken = if is_same {
                Ok(())
            } else {
                Err(Error::OtherWidths)
            };
            for screen in [&*source, viewer.screen(), client.screen()] {
                check(widths, screen, taken);
            }
        }
    }
}

#[test]
fn a_narrow_row_is_not_drawn_over_the_next_one() {
    let mut surface = printed(4, 2, Widths::Unicode, "ab\r\ncd");
    let narrow = printed(4, 1, Widths::OneColumn, "かきくけ");
    let refused = surface.draw_from_screen(&narrow, 0, 0);
    assert_eq!(refused, Err(Error::OtherWidths));
    assert_eq!(rows(&surface), ["ab", "cd"]);
    let copy = Surface::copy_of(&narrow).unwrap();
    assert_eq!(rows(&copy), ["かきくけ"]);
}
