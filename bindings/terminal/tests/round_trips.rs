//! What a renderer writes of a terminal's screen is shown by another terminal as that screen: after
//! each of many random parts of what programs write. `TIKEBURO_SCREENS` is how many times as many
//! as usual are shown: by 50 they are a hundred thousand.

mod support;

use std::env;
use support::parts::{part, Random};
use tikeburo::render::{Options, Renderer};
use tikeburo::{Attributes, Blink, Hyperlink, Surface, Underline};
use tikeburo_terminal::Terminal;

const SIZES: [(usize, usize); 8] = [
    (1, 1),
    (2, 1),
    (2, 3),
    (5, 2),
    (8, 4),
    (20, 6),
    (33, 11),
    (80, 24),
];
const SCREENS: usize = 2000;
const PARTS: usize = 50; // of one terminal

/// What is seen of a cell: its text, width and attributes.
type Seen = (String, usize, Attributes);

/// A link as a renderer writes it, which gives an id to one that has none: all are to `uri`.
fn sent(link: &Hyperlink) -> Hyperlink {
    Hyperlink::new_with_id(link.uri(), link.id().unwrap_or("378f53fd"))
}

/// The attributes that are seen: of a blank without lines and swapped colours its background and
/// its link alone. Whether a row is wrapped isn't seen.
fn seen_attributes(text: &str, attributes: &Attributes) -> Attributes {
    let hyperlink = attributes.hyperlink.as_ref().map(sent);
    let is_plain = !attributes.reverse
        && !attributes.strikethrough
        && !attributes.overline
        && attributes.underline == Underline::None
        && attributes.blink == Blink::None;
    if text == " " && is_plain {
        return Attributes {
            background: attributes.background,
            hyperlink,
            ..Attributes::default()
        };
    }
    Attributes {
        wrapped: false,
        hyperlink,
        ..attributes.clone()
    }
}

fn cells(surface: &Surface) -> Vec<Vec<Seen>> {
    let rows = surface.rows().map(|row| {
        let cells = row.cells().map(Result::unwrap);
        let seen = cells.map(|cell| {
            let text = cell.str().to_string();
            let attributes = seen_attributes(&text, cell.attrs());
            (text, cell.width(), attributes)
        });
        seen.collect()
    });
    rows.collect()
}

/// Where the cursor is shown. A wrap that is pending isn't seen.
fn cursor(surface: &Surface) -> (usize, usize) {
    let (x, y) = surface.cursor_position();
    (x.min(surface.dimensions().0 - 1), y)
}

fn check(first: &Terminal, second: &Terminal, written: &str) {
    let (first, second) = (first.surface(), second.surface());
    assert_eq!(cells(second), cells(first), "{written}");
    assert_eq!(second.cursor_visibility(), first.cursor_visibility());
    assert_eq!(cursor(second), cursor(first), "{written}");
    assert_eq!(second.cursor_shape(), first.cursor_shape(), "{written}");
    assert_eq!(second.title().unwrap(), first.title().unwrap());
}

fn show_parts(size: (usize, usize), random: &mut Random) {
    let (width, height) = size;
    let mut first = Terminal::new(width, height).unwrap();
    let mut second = Terminal::new(width, height).unwrap();
    let mut renderer = Renderer::new(Options::new(width, height));
    let mut written = Vec::new();
    for _ in 0..PARTS {
        for _ in 0..random.below(8) {
            first.feed(part(random).as_bytes()).unwrap();
        }
        written.clear();
        renderer.show(&mut written, first.surface()).unwrap();
        second.feed(&written).unwrap();
        check(&first, &second, &String::from_utf8_lossy(&written));
    }
}

#[test]
fn a_second_terminal_shows_the_screen_of_the_first() {
    let times = env::var("TIKEBURO_SCREENS").map_or(1, |times| times.parse().unwrap());
    for seed in 0..times * SCREENS / PARTS {
        let mut random = Random::new(seed as u64);
        show_parts(SIZES[seed % SIZES.len()], &mut random);
    }
}

/// U+0600 makes one grapheme with any character that follows it.
#[test]
fn a_blank_is_no_part_of_the_text_before_it() {
    let mut first = Terminal::new(5, 1).unwrap();
    let mut second = Terminal::new(5, 1).unwrap();
    first
        .feed("\u{600}\x1b[3Gx\x1b[4G\u{600}".as_bytes())
        .unwrap();
    let mut written = Vec::new();
    let mut renderer = Renderer::new(Options::new(5, 1));
    renderer.show(&mut written, first.surface()).unwrap();
    second.feed(&written).unwrap();
    check(&first, &second, &String::from_utf8_lossy(&written));
}
