//! A strict model of a terminal: it reads what a renderer writes, and fails at each sequence that
//! it doesn't know, and wherever terminals do different things.

use std::iter::Peekable;
use std::ops::Range;
use std::str::Chars;
use tikeburo::{
    graphemes, text_width, Attributes, Blink, ColorAttribute, Intensity, RgbColor, Underline,
    Widths,
};

/// What stands in a column: a text at the first one of it, none at the second.
#[derive(Clone, PartialEq, Eq, Debug)]
pub struct Glyph {
    pub text: String,
    pub pen: Attributes,
    /// The id of a link and its uri.
    pub link: Option<(String, String)>,
}

impl Glyph {
    pub fn blank(background: ColorAttribute) -> Glyph {
        Glyph {
            text: " ".into(),
            pen: Attributes {
                background,
                ..Attributes::default()
            },
            link: None,
        }
    }

    /// What no renderer may leave: half of a wide text, or what was there before the first write.
    fn garbage() -> Glyph {
        Glyph {
            text: "\u{fffd}".into(),
            pen: Attributes::default(),
            link: Some(("garbage".into(), "garbage".into())),
        }
    }
}

/// How a terminal measures texts.
#[derive(Clone, Copy, PartialEq, Debug)]
pub enum Measure {
    Graphemes,
    Characters,
}

pub struct Model {
    pub width: usize,
    pub height: usize,
    pub erases_with_background: bool,
    pub measure: Measure,
    pub rows: Vec<Vec<Glyph>>,
    pub cursor: (usize, usize),
    pub is_pending: bool,
    pub pen: Attributes,
    pub link: Option<(String, String)>,
    pub region: Range<usize>,
    pub is_visible: bool,
    pub shape: usize,
    pub color: Option<String>,
    pub title: String,
    pub titles: Vec<String>,
    pub is_synchronized: bool,
    pub wraps: bool,
    /// The numbers of `ESC #`.
    pub lines: Vec<char>,
    pub scrolls: usize,
}

impl Model {
    /// A terminal that a program left in any state.
    pub fn new(width: usize, height: usize) -> Model {
        Model {
            width,
            height,
            erases_with_background: true,
            measure: Measure::Graphemes,
            rows: vec![vec![Glyph::garbage(); width]; height],
            cursor: (width / 2, height / 2),
            is_pending: true,
            pen: Attributes {
                reverse: true,
                ..Attributes::default()
            },
            link: Some(("left".into(), "left".into())),
            region: height - 1..height,
            is_visible: false,
            shape: 0,
            color: None,
            title: "own".into(),
            titles: Vec::new(),
            is_synchronized: false,
            wraps: true,
            lines: vec!['5'; height],
            scrolls: 0,
        }
    }

    pub fn feed(&mut self, bytes: &[u8]) {
        let text = std::str::from_utf8(bytes).expect("what is written is UTF-8");
        let mut chars = text.chars().peekable();
        while let Some(first) = chars.next() {
            match first {
                '\x1b' => self.escape(&mut chars),
                '\r' => {
                    self.cursor.0 = 0;
                    self.is_pending = false;
                }
                '\n' => {
                    assert_eq!(
                        self.column(),
                        0,
                        "a line feed in another column than the first"
                    );
                    self.feed_line();
                }
                '\x08' => {
                    assert!(self.column() > 0, "a backspace in the first column");
                    self.cursor.0 -= 1;
                }
                _ => {
                    let mut run = String::from(first);
                    while let Some(next) = chars.next_if(|it| *it != '\x1b' && *it >= ' ') {
                        run.push(next);
                    }
                    self.print(&run);
                }
            }
        }
        assert_eq!(self.region, 0..self.height, "a region is left");
        assert!(!self.is_synchronized, "an update is left open");
        assert!(self.wraps, "wrapping is left off");
    }

    /// The cursor's column, where terminals agree on it.
    fn column(&self) -> usize {
        assert!(!self.is_pending, "a wrap is pending");
        self.cursor.0
    }

    /// How many columns the cursor's row has.
    fn row_width(&self) -> usize {
        match self.lines[self.cursor.1] {
            '5' => self.width,
            _ => (self.width / 2).max(1),
        }
    }

    fn print(&mut self, text: &str) {
        assert!(
            !text.contains(char::is_control),
            "a control character in {text:?}"
        );
        let first: String = text.chars().take(1).collect();
        let marks_only = text_width(&first, Widths::Unicode) == 0;
        assert!(!marks_only, "{text:?} joins what is before it");
        if self.measure == Measure::Graphemes {
            for (grapheme, columns) in graphemes(text, Widths::Unicode).unwrap() {
                self.put(grapheme, columns);
            }
            return;
        }
        for character in text.chars() {
            let character = character.to_string();
            match text_width(&character, Widths::Unicode) {
                0 => {
                    let (column, row) = self.cursor;
                    let before = if self.is_pending { column } else { column - 1 };
                    let row = &mut self.rows[row];
                    let begin = (0..=before).rev().find(|it| !row[*it].text.is_empty());
                    row[begin.unwrap()].text += &character;
                }
                columns => self.put(&character, columns),
            }
        }
    }

    fn put(&mut self, text: &str, columns: usize) {
        let width = self.row_width();
        if !self.wraps {
            self.is_pending = false;
            self.cursor.0 = self.cursor.0.min(width.saturating_sub(columns));
        }
        let column = self.column();
        assert!(
            column + columns <= width,
            "{text:?} crosses the last column"
        );
        for column in column..column + columns {
            self.set(
                column,
                Glyph {
                    text: String::new(),
                    pen: self.pen.clone(),
                    link: self.link.clone(),
                },
            );
        }
        self.rows[self.cursor.1][column].text = text.into();
        self.cursor.0 += columns;
        if self.cursor.0 == width {
            self.cursor.0 = width - 1;
            self.is_pending = self.wraps;
        }
    }

    /// Sets a column of the cursor's row. The other half of a wide text is garbage then.
    fn set(&mut self, column: usize, glyph: Glyph) {
        let row = &mut self.rows[self.cursor.1];
        if row[column].text.is_empty() {
            row[column - 1] = Glyph::garbage();
        }
        if row
            .get(column + 1)
            .map_or(false, |next| next.text.is_empty())
        {
            row[column + 1] = Glyph::garbage();
        }
        row[column] = glyph;
    }

    /// What an erased column shows, once it is sure that terminals agree on it.
    fn erased(&self) -> Glyph {
        let pen = &self.pen;
        assert!(self.link.is_none(), "a link where cells are erased");
        let marks = pen.reverse || pen.strikethrough || pen.overline;
        assert!(!marks, "marks where cells are erased");
        assert_eq!((pen.underline, pen.blink), (Underline::None, Blink::None));
        if !self.erases_with_background {
            // Which of the two an erased cell gets is for the terminal to say.
            assert_eq!(pen.background, ColorAttribute::Default);
        }
        Glyph::blank(pen.background)
    }

    fn erase(&mut self, columns: Range<usize>) {
        self.column();
        for column in columns {
            let erased = self.erased();
            self.set(column, erased);
        }
    }

    fn feed_line(&mut self) {
        if self.cursor.1 + 1 == self.region.end {
            self.scroll(self.region.clone(), 1, true);
        } else {
            assert!(
                self.cursor.1 + 1 < self.height,
                "a line feed below the region"
            );
            self.cursor.1 += 1;
        }
    }

    fn scroll(&mut self, region: Range<usize>, count: usize, up: bool) {
        let erased = self.erased();
        assert_eq!(erased.pen.background, ColorAttribute::Default);
        assert!((1..=region.len()).contains(&count), "a scroll by {count}");
        self.scrolls += 1;
        let blank = vec![erased; self.width];
        let rows = &mut self.rows[region];
        if up {
            rows.rotate_left(count);
            rows.iter_mut()
                .rev()
                .take(count)
                .for_each(|row| row.clone_from(&blank));
        } else {
            rows.rotate_right(count);
            rows[..count].fill(blank);
        }
    }

    fn escape(&mut self, chars: &mut Peekable<Chars<'_>>) {
        match chars.next() {
            Some('[') => self.csi(chars),
            Some(']') => {
                let mut text = String::new();
                loop {
                    match chars.next() {
                        Some('\x1b') => break,
                        Some(it) if !it.is_control() => text.push(it),
                        other => panic!("{other:?} in an operating system command"),
                    }
                }
                assert_eq!(chars.next(), Some('\\'));
                self.command(&text);
            }
            Some('M') => {
                self.column();
                if self.cursor.1 == self.region.start {
                    self.scroll(self.region.clone(), 1, false);
                } else {
                    assert!(self.cursor.1 > 0, "an index above the region");
                    self.cursor.1 -= 1;
                }
            }
            Some('\\') => {} // ends what a write that failed may have begun
            Some('#') => {
                assert_eq!(self.column(), 0, "a line attribute in another column");
                let attribute = chars.next().unwrap();
                assert!(('3'..='6').contains(&attribute));
                let line = &mut self.lines[self.cursor.1];
                if *line != attribute {
                    *line = attribute;
                    self.rows[self.cursor.1] = vec![Glyph::garbage(); self.width];
                }
            }
            other => panic!("ESC {other:?}"),
        }
    }

    fn command(&mut self, text: &str) {
        let (number, rest) = text.split_once(';').unwrap_or((text, ""));
        match number {
            "2" => self.title = rest.into(),
            "8" => {
                let (params, uri) = rest.split_once(';').expect("a link with params");
                let is_sent = |it: char| it.is_ascii_graphic();
                assert!(params.chars().all(is_sent) && uri.chars().all(is_sent));
                self.link = match params.strip_prefix("id=") {
                    Some(id) => Some((id.into(), uri.into())),
                    None => {
                        assert_eq!((params, uri), ("", ""));
                        None
                    }
                };
            }
            "12" => {
                assert!(rest.len() == 7 && rest.starts_with('#'));
                self.color = Some(rest.into());
            }
            "112" if rest.is_empty() => self.color = None,
            _ => panic!("OSC {text}"),
        }
    }

    fn csi(&mut self, chars: &mut Peekable<Chars<'_>>) {
        let mut params = String::new();
        while let Some(it) = chars.next_if(|it| matches!(it, '0'..='9' | ';' | ':' | '?' | ' ')) {
            params.push(it);
        }
        let code = chars.next().expect("a sequence ends");
        match (params.as_str(), code) {
            ("?25", 'h' | 'l') => return self.is_visible = code == 'h',
            ("?7", 'h' | 'l') => return self.wraps = code == 'h',
            ("?2026", 'h' | 'l') => return self.is_synchronized = code == 'h',
            ("22;2", 't') => return self.titles.push(self.title.clone()),
            ("23;2", 't') => return self.title = self.titles.pop().expect("a title was kept"),
            ("", 'r') => return self.set_region(0..self.height),
            (_, 'm') => return self.select(&params),
            (_, 'q') => {
                let number = params.strip_suffix(' ').expect("the number of a shape");
                return self.shape = number.parse().unwrap();
            }
            _ => {}
        }
        let numbers = params.split(';').map(|it| match it {
            "" => 0,
            it => it.parse().unwrap_or_else(|_| panic!("CSI {params}{code}")),
        });
        let numbers: Vec<usize> = numbers.collect();
        match numbers[..] {
            [top, bottom] if code == 'r' => self.set_region(top.max(1) - 1..bottom),
            [row, column] if code == 'H' => self.go(column.max(1) - 1, row.max(1) - 1),
            [number] => self.numbered(number, code),
            _ => panic!("CSI {params}{code}"),
        }
    }

    fn numbered(&mut self, number: usize, code: char) {
        let (count, (column, row)) = (number.max(1), self.cursor);
        match code {
            'H' => self.go(0, count - 1),
            'G' => self.go(count - 1, row),
            'd' => self.go(self.column(), count - 1),
            'A' => self.go(self.column(), row - count),
            'B' => self.go(self.column(), row + count),
            'C' => self.go(self.column() + count, row),
            'D' => self.go(self.column() - count, row),
            'K' if number == 0 => self.erase(column..self.row_width()),
            'X' => {
                assert!(
                    column + count <= self.row_width(),
                    "an erase behind the last column"
                );
                self.erase(column..column + count);
            }
            'J' if number == 0 || number == 2 => {
                let cursor = self.cursor;
                let begin = if number == 0 { cursor.1 } else { 0 };
                for row in begin..self.height {
                    self.cursor.1 = row;
                    let column = if number == 0 && row == begin {
                        column
                    } else {
                        0
                    };
                    self.erase(column..self.row_width());
                }
                self.cursor = cursor;
            }
            'L' | 'M' => {
                assert_eq!(self.column(), 0, "lines are moved from another column");
                assert!(
                    self.region.contains(&row),
                    "lines are moved outside of the region"
                );
                self.scroll(row..self.region.end, count, code == 'M');
            }
            _ => panic!("CSI {number}{code}"),
        }
    }

    fn set_region(&mut self, region: Range<usize>) {
        let is_all = region == (0..self.height);
        assert!(
            is_all || region.len() > 1 && region.end <= self.height,
            "{region:?}"
        );
        self.region = region;
        self.go(0, 0);
    }

    fn go(&mut self, column: usize, row: usize) {
        assert!(row < self.height, "a move to row {row}");
        self.cursor = (column, row);
        assert!(column < self.row_width(), "a move to column {column}");
        self.is_pending = false;
    }

    fn select(&mut self, params: &str) {
        let mut params = params.split(';');
        while let Some(param) = params.next() {
            let pen = &mut self.pen;
            match param {
                "" | "0" => *pen = Attributes::default(),
                "1" | "2" => {
                    assert_eq!(pen.intensity, Intensity::Normal, "bold and dim at once");
                    pen.intensity = if param == "1" {
                        Intensity::Bold
                    } else {
                        Intensity::Half
                    };
                }
                "22" => pen.intensity = Intensity::Normal,
                "3" | "23" => pen.italic = param == "3",
                "4" => pen.underline = Underline::Single,
                "4:2" => pen.underline = Underline::Double,
                "4:3" => pen.underline = Underline::Curly,
                "4:4" => pen.underline = Underline::Dotted,
                "4:5" => pen.underline = Underline::Dashed,
                "24" => pen.underline = Underline::None,
                "5" | "6" => {
                    assert_eq!(pen.blink, Blink::None, "two blinks at once");
                    pen.blink = if param == "5" {
                        Blink::Slow
                    } else {
                        Blink::Rapid
                    };
                }
                "25" => pen.blink = Blink::None,
                "7" | "27" => pen.reverse = param == "7",
                "8" | "28" => pen.invisible = param == "8",
                "9" | "29" => pen.strikethrough = param == "9",
                "53" | "55" => pen.overline = param == "53",
                "39" => pen.foreground = ColorAttribute::Default,
                "49" => pen.background = ColorAttribute::Default,
                "59" => pen.underline_color = ColorAttribute::Default,
                "38" => pen.foreground = color(&mut params),
                "48" => pen.background = color(&mut params),
                _ if param.starts_with("58:") => {
                    let mut numbers = param.split(':').skip(1).filter(|it| !it.is_empty());
                    pen.underline_color = color(&mut numbers);
                }
                _ => {
                    let number: u8 = param.parse().unwrap_or_else(|_| panic!("SGR {param}"));
                    match number {
                        30..=37 => pen.foreground = ColorAttribute::PaletteIndex(number - 30),
                        40..=47 => pen.background = ColorAttribute::PaletteIndex(number - 40),
                        90..=97 => pen.foreground = ColorAttribute::PaletteIndex(number - 82),
                        100..=107 => pen.background = ColorAttribute::PaletteIndex(number - 92),
                        _ => panic!("SGR {param}"),
                    }
                }
            }
        }
    }
}

/// The colour that these numbers name, after 38 or its siblings.
fn color<'a>(numbers: &mut impl Iterator<Item = &'a str>) -> ColorAttribute {
    let mut number = || numbers.next().unwrap().parse::<u8>().unwrap();
    match number() {
        5 => ColorAttribute::PaletteIndex(number()),
        2 => RgbColor::new_8bpc(number(), number(), number()).into(),
        other => panic!("a colour of kind {other}"),
    }
}
