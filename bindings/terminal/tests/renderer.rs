//! What a renderer writes is, to a terminal, the session that it shows:
//! the same cells, cursor and title after each part.

use tikeburo::render::{Options, Renderer};
use tikeburo::{Attributes, Cell, Changes, CursorVisibility, Row, Screen, Underline};
use tikeburo_terminal::Terminal;

const SESSION: &str = concat!(
    "\x1b]2;notes か\x07first\r\n\x1b[1;34mblue \x1b[0;7;42mon green\x1b[m\r\n",
    "か漢字 e\u{301} ☂️ 👩‍🚀 and a line that goes on in the next row\r\n",
    "\x1b[44mblue\r\nbelow\x1b[m\r\n1\r\n2\r\n3\r\n\x1b[?25l",
    "\x1b[H\x1b[L\x1b[38;2;1;2;3;58:5:9;4:3mnew\x1b[m\x1b[3;1H\x1b[2M\x1b[41m\x1b[K\x1b[m",
    "\x1b[2;5r\x1b[5;1H\x1b[1;31m\r\nred\r\n\x1b[44m\r\n\x1b[2;1H\x1bM\x1b[r\x1b[m\x1b[6;1H",
    "\x1b[Lonly\x1b[2P\x1b[3@\x1b[45m\x1b[2X\x1b[1;15Hlast columns\x1b[?25h\x1b[2J\x1b[m",
    "\x1b[H0123456789abcdefghij\x1b[1mwrapped\x1b[3;20H\x1b[9mx\x1b]0;end\x07",
);

/// All that is seen of a screen. The cursor is in the last column where a wrap is pending, too.
type Seen = (
    Vec<Vec<(String, Attributes)>>,
    (usize, usize),
    CursorVisibility,
    String,
);

fn seen(screen: &Screen) -> Seen {
    let cells = |row: Row<'_>| {
        row.into_iter()
            .map(|cell| seen_cell(&cell.unwrap()))
            .collect()
    };
    let (column, row) = screen.cursor_position();
    (
        screen.rows().map(cells).collect(),
        (column.min(19), row),
        screen.cursor_visibility(),
        screen.title().unwrap(),
    )
}

/// A cell's text and attributes: of a mark in a cell of its own, which stands on a space, the mark,
/// and of a blank's attributes what is seen.
fn seen_cell(cell: &Cell) -> (String, Attributes) {
    let mut pen = cell.attrs().clone();
    let has_marks = pen.reverse || pen.strikethrough || pen.underline != Underline::None;
    if cell.str() == " " && !has_marks {
        pen = Attributes {
            background: pen.background,
            ..Attributes::default()
        };
    }
    let mark = cell.str().strip_prefix(' ').filter(|mark| !mark.is_empty());
    (mark.unwrap_or(cell.str()).into(), pen)
}

#[test]
fn what_is_written_shows_the_session() {
    for size in [1, 7, 40, SESSION.len()] {
        let [mut played, mut shown, mut followed] = [0; 3].map(|_| Terminal::new(20, 6).unwrap());
        played.surface_mut().keep_changes(true);
        let [mut renderer, mut follower] = [0; 2].map(|_| Renderer::new(Options::new(20, 6)));
        let (mut since, mut changes) = (0, Changes::new());
        for (number, part) in SESSION.as_bytes().chunks(size).enumerate() {
            played.feed(part).unwrap();
            let mut out = Vec::new();
            renderer.show(&mut out, played.surface()).unwrap();
            shown.feed(&out).unwrap();
            let what = format!("part {number} of {size} bytes");
            assert_eq!(seen(shown.surface()), seen(played.surface()), "{what}");

            out.clear();
            since = played.surface().read_changes(since, &mut changes).unwrap();
            follower.changes(&mut out, &changes).unwrap();
            followed.feed(&out).unwrap();
            assert_eq!(
                seen(followed.surface()),
                seen(played.surface()),
                "{what}, by changes"
            );
        }
    }
}
