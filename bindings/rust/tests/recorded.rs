//! What termwiz 0.23.3 itself answered to random scripts, which `cases/recorded` has:
//! the crate shows the same rows and cursors, and termwiz's repaints draw what it shows.

use std::str::{Lines, SplitWhitespace};
use std::{fs, iter::Peekable};
use tikeburo::{
    Attributes, Change, ColorAttribute, CursorVisibility, Intensity, Position, RgbColor, Screen,
    Surface, Underline, Viewer,
};

const SCRIPTS: &str = concat!(
    env!("CARGO_MANIFEST_DIR"),
    "/../../cases/recorded/surfaces.txt"
);

fn number<T: std::str::FromStr<Err = std::num::ParseIntError>>(word: &str) -> T {
    word.parse().expect(word)
}

fn color(word: Option<&str>) -> ColorAttribute {
    match word {
        None | Some("default") => ColorAttribute::Default,
        Some(word) => match word.strip_prefix('#') {
            Some(digits) => {
                let [_, red, green, blue] =
                    u32::from_str_radix(digits, 16).expect(word).to_be_bytes();
                RgbColor::new_8bpc(red, green, blue).into()
            }
            None => ColorAttribute::PaletteIndex(number(word)),
        },
    }
}

fn pen(words: SplitWhitespace<'_>) -> Attributes {
    let mut pen = Attributes::default();
    for word in words {
        match word.split_once('=') {
            Some(("fg", value)) => pen.foreground = color(Some(value)),
            Some((_, value)) => pen.background = color(Some(value)),
            None => match word {
                "bold" => pen.intensity = Intensity::Bold,
                "half" => pen.intensity = Intensity::Half,
                "underline" => pen.underline = Underline::Single,
                "italic" => pen.italic = true,
                "reverse" => pen.reverse = true,
                "strike" => pen.strikethrough = true,
                _ => assert_eq!(word, "default"),
            },
        }
    }
    pen
}

/// A text in which a line break, a backslash or any character may stand behind a backslash.
fn text(escaped: &str) -> String {
    let mut parts = escaped.split('\\');
    let mut text = parts.next().unwrap_or_default().to_string();
    while let Some(part) = parts.next() {
        let (escape, behind) = match part.strip_prefix("u{") {
            Some(rest) => {
                let (digits, behind) = rest.split_once('}').expect(part);
                let code = u32::from_str_radix(digits, 16).expect(part);
                (char::from_u32(code).expect(part), behind)
            }
            None if part.is_empty() => ('\\', parts.next().unwrap_or_default()),
            None if part.starts_with('n') => ('\n', &part[1..]),
            None => ('\r', part.strip_prefix('r').expect(part)),
        };
        text.push(escape);
        text.push_str(behind);
    }
    text
}

fn position(word: &str) -> Position {
    match word.split_at(1) {
        ("=", place) => Position::Absolute(number(place)),
        ("$", distance) => Position::EndRelative(number(distance)),
        _ => Position::Relative(number(word.trim_start_matches('+'))),
    }
}

/// The change that a line of a script or of an answer says, if it says one.
fn change(line: &str) -> Option<Change> {
    let mut words = line.split_whitespace();
    let name = words.next()?;
    let mut next = || words.next().expect(line);
    Some(match name {
        "text" => Change::Text(text(line.get(5..).unwrap_or_default())),
        "at" => Change::CursorPosition {
            x: Position::Absolute(number(next())),
            y: Position::Absolute(number(next())),
        },
        "move" => Change::CursorPosition {
            x: position(next()),
            y: position(next()),
        },
        "pen" => Change::AllAttributes(pen(words)),
        "clear" => Change::ClearScreen(color(words.next())),
        "eol" => Change::ClearToEndOfLine(color(words.next())),
        "eos" => Change::ClearToEndOfScreen(color(words.next())),
        "up" => Change::ScrollRegionUp {
            first_row: number(next()),
            region_size: number(next()),
            scroll_count: number(next()),
        },
        "down" => Change::ScrollRegionDown {
            first_row: number(next()),
            region_size: number(next()),
            scroll_count: number(next()),
        },
        "hidden" => Change::CursorVisibility(CursorVisibility::Hidden),
        "visible" => Change::CursorVisibility(CursorVisibility::Visible),
        _ => return None,
    })
}

/// What is left of the file, and how much of it was compared.
struct Record<'a> {
    answers: Peekable<Lines<'a>>,
    screens: usize,
    repaints: usize,
}

impl<'a> Record<'a> {
    fn answer(&mut self) -> &'a str {
        let line = self.answers.next().expect("an answer");
        line.strip_prefix("< ").expect(line)
    }

    /// Compares the rows, each between bars, and the cursor.
    fn compare(&mut self, screen: &Screen, row: impl Fn(usize) -> String) {
        for number in 0..screen.dimensions().1 {
            assert_eq!(format!("|{}|", row(number)), self.answer());
        }
        let (x, y) = screen.cursor_position();
        assert_eq!(format!("cursor {x} {y}"), self.answer());
        self.screens += 1;
    }

    /// Compares the number; and the screen, where the answer is a repaint.
    fn compare_answer(&mut self, surface: &Surface) {
        let wanted = format!("number {}", surface.current_seqno());
        assert_eq!(wanted, self.answer());
        let mut changes = Vec::new();
        while let Some(line) = self.answers.peek() {
            let Some(change) = line.strip_prefix("< ").and_then(change) else {
                break;
            };
            changes.push(change);
            self.answers.next();
        }
        let hidden = Change::CursorVisibility(CursorVisibility::Hidden);
        let cleared = Change::ClearScreen(ColorAttribute::Default);
        if changes.starts_with(&[hidden, cleared]) {
            let (width, height) = surface.dimensions();
            let mut drawn = Surface::new(width, height).unwrap();
            drawn.add_changes(&changes).unwrap();
            for (drawn, shown) in drawn.rows().zip(surface.rows()) {
                assert!(drawn.cells().eq(shown.cells()));
            }
            assert_eq!(drawn.cursor_position(), surface.cursor_position());
            self.repaints += 1;
        }
    }

    fn play(&mut self, size: &str, script: &[&str]) {
        let (width, height) = size.split_once(' ').expect(size);
        let mut surface = Surface::new(number(width), number(height)).unwrap();
        let mut viewer = Viewer::new(&surface).unwrap();
        for line in script {
            match line.split(' ').collect::<Vec<_>>()[..] {
                ["show"] => self.compare(&surface, |row| surface.row(row).text().unwrap()),
                ["ask", _] => self.compare_answer(&surface),
                ["flush", _] => {}
                ["view"] => {
                    viewer.follow(&surface).unwrap();
                    let wanted = format!("viewer {}", surface.current_seqno());
                    assert_eq!(wanted, self.answer());
                    let screen = viewer.screen();
                    let cells = |row| screen.row(row).cells().map(Result::unwrap);
                    let texts = |row| cells(row).map(|cell| cell.str().to_string()).collect();
                    self.compare(screen, texts);
                }
                ["resize", width, height] => {
                    surface.resize(number(width), number(height)).unwrap();
                }
                _ => drop(surface.add_change(change(line).expect(line)).unwrap()),
            }
        }
    }
}

#[test]
fn rows_and_cursors_are_those_of_termwiz() {
    let Ok(file) = fs::read_to_string(SCRIPTS) else {
        return; // the crate lies in no checkout
    };
    let mut record = Record {
        answers: file.lines().peekable(),
        screens: 0,
        repaints: 0,
    };
    while let Some(line) = record.answers.next() {
        let size = line.strip_prefix("case ").expect(line);
        let mut script = Vec::new();
        while let Some(line) = record
            .answers
            .peek()
            .and_then(|line| line.strip_prefix("> "))
        {
            script.push(line);
            record.answers.next();
        }
        record.play(size, &script);
    }
    assert_eq!((record.screens, record.repaints), (1220 + 614, 820));
}
