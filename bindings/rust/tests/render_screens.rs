//! What a renderer writes is, to a strict model of a terminal, what the screen shows: for random
//! screens of many sizes, with wide texts, marks, emoji, pens and links. `TIKEBURO_SCREENS` is how
//! many times as many screens as usual are shown: by 4 they are some ten thousand.

mod render_model;

use render_model::{Glyph, Measure, Model};
use std::env;
use std::io::{self, Write};
use tikeburo::render::{Error, Options, Renderer};
use tikeburo::{
    graphemes, text_width, AttributeChange, Attributes, Blink, Change, Changes, ColorAttribute,
    CursorShape, CursorVisibility, Hyperlink, Intensity, LineAttribute, Position, RgbColor, Screen,
    Surface, Underline, Viewer, Widths,
};

const TEXTS: [&str; 32] = [
    "a",
    "b",
    "xyz",
    " ",
    "   ",
    "か",
    "漢字",
    "e\u{301}",
    "\u{301}",
    "👩\u{200d}🚀",
    "🇩🇪",
    "🇩",
    "🇪",
    "☂\u{fe0f}",
    "☂",
    "\u{1100}",
    "\u{1161}",
    "क",
    "\u{93f}",
    "\u{94d}",
    "\u{85}",
    "\t",
    "\u{7f}",
    "\u{200d}",
    "─",
    "\r\n",
    "\n",
    "words of a line ",
    "               ",
    "×",
    "👩\u{200d}",
    "👍🏽",
];

const SIZES: [(usize, usize); 12] = [
    (1, 1),
    (2, 1),
    (1, 2),
    (2, 2),
    (3, 3),
    (5, 2),
    (8, 4),
    (9, 12),
    (20, 6),
    (40, 15),
    (7, 30),
    (80, 24),
];

/// Numbers of Marsaglia's xorshift.
struct Random(u64);

impl Random {
    fn new(seed: u64) -> Random {
        Random(seed.wrapping_mul(0x9e37_79b9_7f4a_7c15) | 1)
    }

    fn below(&mut self, limit: usize) -> usize {
        self.0 ^= self.0 << 13;
        self.0 ^= self.0 >> 7;
        self.0 ^= self.0 << 17;
        (self.0 >> 11) as usize % limit
    }

    fn one_of<T: Clone>(&mut self, all: &[T]) -> T {
        all[self.below(all.len())].clone()
    }

    fn color(&mut self) -> ColorAttribute {
        let rgb = RgbColor::new_8bpc(255, self.one_of(&[0, 128]), 7);
        let indices = [0, 1, 7, 8, 15, 16, 200].map(ColorAttribute::PaletteIndex);
        match self.below(6) {
            0 => rgb.into(),
            1 => ColorAttribute::TrueColorWithPaletteFallback(rgb, 4),
            2..=3 => self.one_of(&indices),
            _ => ColorAttribute::Default,
        }
    }

    fn link(&mut self) -> Option<Hyperlink> {
        let links = [
            ("http://a", ""),
            ("http://a", "7"),
            ("http://か/b;c d", "a:b;か"),
            ("", ""),
            ("", "7"),
            ("x", ""),
        ];
        (self.below(4) == 0).then(|| {
            let (uri, id) = self.one_of(&links);
            Hyperlink::new_with_id(uri, id)
        })
    }

    fn pen(&mut self) -> Attributes {
        use Underline::{Curly, Dashed, Dotted, Double, Single};
        let mut rarely = || self.below(5) == 0;
        let (italic, reverse, strikethrough) = (rarely(), rarely(), rarely());
        let (invisible, wrapped, overline) = (rarely(), rarely(), rarely());
        let (lines, blinks) = (rarely(), rarely());
        let underlines = [Single, Double, Curly, Dotted, Dashed];
        Attributes {
            intensity: self.one_of(&[Intensity::Normal, Intensity::Bold, Intensity::Half]),
            underline: if lines {
                self.one_of(&underlines)
            } else {
                Underline::None
            },
            blink: if blinks {
                self.one_of(&[Blink::Slow, Blink::Rapid])
            } else {
                Blink::None
            },
            italic,
            reverse,
            strikethrough,
            invisible,
            wrapped,
            overline,
            foreground: self.color(),
            background: self.color(),
            underline_color: self.color(),
            hyperlink: self.link(),
            ..Attributes::default()
        }
    }

    fn text(&mut self) -> String {
        (0..1 + self.below(8))
            .map(|_| self.one_of(&TEXTS))
            .collect()
    }

    /// Some changes of a surface of this size.
    fn changes(&mut self, width: usize, height: usize) -> Changes {
        let mut changes = Changes::new();
        for _ in 0..self.below(12) {
            self.change(&mut changes, width, height);
        }
        changes
    }

    fn change(&mut self, changes: &mut Changes, width: usize, height: usize) {
        let color = self.color();
        let first = self.below(height);
        let rows = self.below(height - first) + 1;
        let count = 1 + self.below(rows);
        match self.below(24) {
            0..=7 => changes.text(&self.text()),
            8..=9 => changes.pen(&self.pen()),
            10..=11 => changes.move_to(self.below(width), self.below(height)),
            12 => changes.move_by(self.below(5) as isize - 2, self.below(3) as isize - 1),
            13 => changes.position(Position::EndRelative(self.below(3)), Position::Relative(0)),
            14 => changes.clear_to_end_of_line(color),
            15 => changes.clear_to_end_of_screen(color),
            16 if self.below(4) == 0 => changes.clear_screen(color),
            16 => changes.clear_columns(self.below(width), color),
            17 => changes.scroll_up(first, rows, count),
            18 => changes.scroll_down(first, rows, count),
            19 => changes.cursor_visibility(CursorVisibility::from(self.below(2) == 0)),
            20 => changes.cursor_shape(self.one_of(&[
                CursorShape::Default,
                CursorShape::SteadyBar,
                CursorShape::BlinkingBlock,
            ])),
            21 => changes.title(self.one_of(&["", "か title", "a\u{9b}\x1b]b\x07"])),
            22 => changes.cursor_color(color),
            _ => changes.attribute(&AttributeChange::Hyperlink(self.link())),
        };
    }
}

/// The id and the uri of a link, as they are sent.
fn sent(link: &Hyperlink) -> Option<(String, String)> {
    let uri = encoded(link.uri(), "");
    let hash = uri.bytes().fold(0x811c_9dc5, |hash: u32, byte| {
        (hash ^ u32::from(byte)).wrapping_mul(0x0100_0193)
    });
    let id = match link.id() {
        Some(id) => encoded(id, ":;"),
        None => format!("{hash:x}"),
    };
    (!uri.is_empty()).then_some((id, uri))
}

/// A text in printable ASCII, without these characters.
fn encoded(text: &str, without: &str) -> String {
    let mut out = String::new();
    for byte in text.bytes() {
        match byte {
            b'!'..=b'~' if !without.contains(char::from(byte)) => out.push(byte.into()),
            _ => out += &format!("%{byte:02X}"),
        }
    }
    out
}

fn true_color(color: ColorAttribute) -> ColorAttribute {
    match color {
        ColorAttribute::TrueColorWithPaletteFallback(rgb, _) => rgb.into(),
        color => color,
    }
}

/// A pen as a terminal shows it: on blanks, only what is seen of it.
fn shown_pen(pen: &Attributes, is_blank: bool) -> Attributes {
    let background = true_color(pen.background);
    let has_marks = pen.reverse
        || pen.strikethrough
        || pen.overline
        || pen.underline != Underline::None
        || pen.blink != Blink::None;
    if is_blank && !has_marks {
        return Attributes {
            background,
            ..Attributes::default()
        };
    }
    Attributes {
        foreground: true_color(pen.foreground),
        background,
        underline_color: true_color(pen.underline_color),
        wrapped: false,
        hyperlink: None,
        ..pen.clone()
    }
}

/// What a terminal of this size shows of a row.
fn shown_row(screen: &Screen, row: usize, width: usize) -> Vec<Glyph> {
    let mut glyphs = Vec::new();
    for cell in screen.row(row).cells() {
        let cell = cell.unwrap();
        let room = width.saturating_sub(glyphs.len());
        let columns = cell.width().min(room);
        let mut text = cell.str().to_string();
        text.retain(|it| !it.is_control());
        if cell.width() > room {
            text = " ".into();
        } else if text_width(&text.chars().take(1).collect::<String>(), Widths::Unicode) == 0 {
            text.insert(0, ' ');
            let is_whole = graphemes(&text, Widths::Unicode).unwrap().len() == 1;
            if !is_whole || text_width(&text, Widths::Unicode) > columns {
                text = " ".repeat(columns);
            }
        }
        let link = cell.attrs().hyperlink().and_then(sent);
        let pen = shown_pen(cell.attrs(), text.chars().all(|it| it == ' '));
        let is_blank = text.chars().all(|it| it == ' ');
        for column in 0..columns {
            glyphs.push(Glyph {
                text: match column {
                    _ if is_blank => " ".into(),
                    0 => text.clone(),
                    _ => String::new(),
                },
                pen: pen.clone(),
                link: link.clone(),
            });
        }
    }
    glyphs.resize(width, Glyph::blank(ColorAttribute::Default));
    glyphs
}

/// Whether a glyph is seen as this one.
fn is_seen_as(glyph: &Glyph, wanted: &Glyph) -> bool {
    let is_blank = glyph.text == " ";
    glyph.text == wanted.text
        && glyph.link == wanted.link
        && (glyph.pen == wanted.pen || shown_pen(&glyph.pen, is_blank) == wanted.pen)
}

/// What is seen of the terminal.
fn seen_row(row: &[Glyph]) -> Vec<Glyph> {
    let glyphs = row.iter().map(|glyph| Glyph {
        pen: shown_pen(&glyph.pen, glyph.text == " "),
        ..glyph.clone()
    });
    glyphs.collect()
}

/// The columns of a text where its characters are measured one by one.
fn columns_by_characters(text: &str) -> usize {
    let columns = text
        .chars()
        .map(|it| text_width(&it.to_string(), Widths::Unicode));
    columns.sum()
}

/// Compares all that is seen.
fn check(model: &Model, screen: &Screen, what: &str) {
    let (_, height) = screen.dimensions();
    for (number, row) in model.rows.iter().enumerate() {
        let wanted = if number < height {
            shown_row(screen, number, model.width)
        } else {
            vec![Glyph::blank(ColorAttribute::Default); model.width]
        };
        check_row(
            row,
            &wanted,
            model.measure,
            &format!("{what}, row {number}"),
        );
    }
    check_settings(model, screen, what);
}

/// Compares each text of a row. Where characters are measured one by one, those of a text may stand
/// in columns of their own, and some texts are shown in another way: one that takes fewer columns
/// has blanks after it.
fn check_row(row: &[Glyph], wanted: &[Glyph], measure: Measure, what: &str) {
    if row
        .iter()
        .zip(wanted)
        .all(|(glyph, wanted)| is_seen_as(glyph, wanted))
    {
        return;
    }
    let mut column = 0;
    while column < wanted.len() {
        let begin = column;
        column += 1;
        while wanted
            .get(column)
            .map_or(false, |glyph| glyph.text.is_empty())
        {
            column += 1;
        }
        let (mut seen, wanted) = (row[begin..column].to_vec(), &wanted[begin..column]);
        if measure == Measure::Characters {
            let by_characters = columns_by_characters(&wanted[0].text);
            if by_characters != text_width(&wanted[0].text, Widths::Unicode) {
                let behind = seen.iter().skip(by_characters);
                assert!(
                    behind.into_iter().all(|glyph| glyph.text == " "),
                    "{what}, column {begin}"
                );
                continue;
            }
            seen[0].text = seen.iter().map(|glyph| glyph.text.as_str()).collect();
            seen[1..].iter_mut().for_each(|glyph| glyph.text.clear());
        }
        assert_eq!(seen_row(&seen), wanted, "{what}, column {begin}");
    }
}

fn check_settings(model: &Model, screen: &Screen, what: &str) {
    let (column, row) = screen.cursor_position();
    let wanted = (column.min(model.width - 1), row.min(model.height - 1));
    assert_eq!((model.cursor, model.is_pending), (wanted, false), "{what}");
    let visibility = CursorVisibility::from(model.is_visible);
    assert_eq!(visibility, screen.cursor_visibility(), "{what}");
    assert_eq!(model.shape, screen.cursor_shape() as usize, "{what}");
    let is_default = screen.cursor_color() == ColorAttribute::Default;
    assert_eq!(model.color.is_none(), is_default, "{what}");
    let mut title = screen.title().unwrap();
    title.retain(|it| !it.is_control());
    if title.is_empty() && model.titles.is_empty() {
        title = "own".into();
    }
    assert_eq!(model.title, title, "{what}");
}

/// How many seeds are played, where these are the usual ones.
fn seeds(usual: u64) -> u64 {
    let times = env::var("TIKEBURO_SCREENS").map(|times| times.parse());
    usual
        * times
            .unwrap_or(Ok(1))
            .expect("a number in TIKEBURO_SCREENS")
}

/// Plays random changes on surfaces of many sizes, and shows each on a model that `prepare` made.
fn play(seeds: u64, options: fn(Options) -> Options, prepare: fn(&mut Model)) -> (usize, usize) {
    let (mut screens, mut scrolls) = (0, 0);
    for seed in 0..seeds {
        let mut random = Random::new(seed);
        let (width, height) = random.one_of(&SIZES);
        let mut surface = Surface::new(width, height).unwrap();
        let mut renderer = Renderer::new(options(Options::new(width, height)));
        let mut model = Model::new(width, height);
        prepare(&mut model);
        for step in 0..12 {
            surface.add(&random.changes(width, height)).unwrap();
            let mut out = Vec::new();
            renderer.show(&mut out, &surface).unwrap();
            model.feed(&out);
            let what = format!("seed {seed}, step {step}, {width}x{height}");
            check(&model, &surface, &what);
            screens += 1;
            out.clear();
            renderer.show(&mut out, &surface).unwrap();
            assert!(out.is_empty(), "{what}: shown again");
        }
        let mut out = Vec::new();
        renderer.end(&mut out).unwrap();
        model.feed(&out);
        check_end(&model);
        scrolls += model.scrolls;
    }
    (screens, scrolls)
}

fn check_end(model: &Model) {
    assert_eq!(model.pen, Attributes::default());
    assert_eq!(model.link, None);
    assert!(model.is_visible && model.wraps && model.titles.is_empty());
    assert_eq!((model.shape, &model.color), (0, &None));
    assert_eq!(model.title, "own");
}

#[test]
fn screens_are_shown() {
    let seeds = seeds(75);
    let (screens, scrolls) = play(seeds, |options| options, |_| {});
    assert_eq!(screens, 12 * seeds as usize);
    assert!(scrolls > screens / 36, "{scrolls} scrolls");
}

#[test]
fn screens_are_shown_by_updates_that_are_synchronized() {
    play(seeds(20), |options| options.synchronized(true), |_| {});
}

#[test]
fn screens_are_shown_where_erased_cells_have_no_background() {
    play(
        seeds(25),
        |options| options.erases_with_background(false),
        |model| model.erases_with_background = false,
    );
}

#[test]
fn screens_are_shown_where_characters_are_measured_one_by_one() {
    play(
        seeds(50),
        |options| options,
        |model| model.measure = Measure::Characters,
    );
}

/// A change as a list that is read has it: its links have their uris alone.
fn without_id(change: Change) -> Change {
    let bare = |link: Option<Hyperlink>| link.map(|link| Hyperlink::new(link.uri()));
    match change {
        Change::AllAttributes(mut pen) => {
            pen.hyperlink = bare(pen.hyperlink);
            Change::AllAttributes(pen)
        }
        Change::Attribute(AttributeChange::Hyperlink(link)) => {
            AttributeChange::Hyperlink(bare(link)).into()
        }
        change => change,
    }
}

#[test]
fn changes_are_shown() {
    for seed in 0..seeds(30) {
        let mut random = Random::new(seed + 1000);
        let (width, height) = random.one_of(&SIZES);
        let [mut surface, mut without_ids] = [0; 2].map(|_| Surface::new(width, height).unwrap());
        let mut renderer = Renderer::new(Options::new(width, height));
        let mut followed = Renderer::new(Options::new(width, height));
        let [mut model, mut follower] = [0; 2].map(|_| Model::new(width, height));
        let (mut since, mut list) = (0, Changes::new());
        for step in 0..12 {
            let changes = random.changes(width, height);
            surface.add(&changes).unwrap();
            let bare = changes.iter().map(without_id).collect();
            without_ids.add(&bare).unwrap();
            let [mut out, mut other] = [0; 2].map(|_| Vec::new());
            renderer.changes(&mut out, &changes).unwrap();
            model.feed(&out);
            let what = format!("seed {seed}, step {step}, {width}x{height}");
            check(&model, &surface, &what);
            since = surface.read_changes(since, &mut list).unwrap();
            followed.changes(&mut other, &list).unwrap();
            follower.feed(&other);
            check(&follower, &without_ids, &what);
        }
    }
}

#[test]
fn a_terminal_may_have_another_size() {
    for seed in 0..seeds(40) {
        let mut random = Random::new(seed + 2000);
        let (width, height) = random.one_of(&SIZES);
        let mut surface = Surface::new(width, height).unwrap();
        let (width, height) = random.one_of(&SIZES);
        let mut renderer = Renderer::new(Options::new(width, height));
        let mut model = Model::new(width, height);
        for step in 0..6 {
            let (width, height) = surface.dimensions();
            surface.add(&random.changes(width, height)).unwrap();
            let mut out = Vec::new();
            renderer.show(&mut out, &surface).unwrap();
            model.feed(&out);
            check(&model, &surface, &format!("seed {seed}, step {step}"));
            let (width, height) = random.one_of(&SIZES);
            if step == 2 {
                renderer.resize(width, height).unwrap();
                model = Model {
                    title: model.title,
                    titles: model.titles,
                    ..Model::new(width, height)
                };
            } else if step == 4 {
                surface.resize(width, height).unwrap();
            }
        }
    }
}

#[test]
fn screens_are_shown_in_turn() {
    for seed in 0..seeds(40) {
        let mut random = Random::new(seed + 6000);
        let (width, height) = random.one_of(&SIZES);
        let mut surfaces = [0; 2].map(|_| Surface::new(width, height).unwrap());
        let mut viewer = Viewer::new(&surfaces[0]).unwrap();
        let mut renderer = Renderer::new(Options::new(width, height));
        let mut model = Model::new(width, height);
        for step in 0..12 {
            let surface = &mut surfaces[random.below(2)];
            let (width, height) = surface.dimensions();
            surface.add(&random.changes(width, height)).unwrap();
            match random.below(9) {
                0 => surface.resize(width, random.below(height) + 1).unwrap(),
                1 => surface.resize(random.below(width) + 1, height).unwrap(),
                // Another one, where this one was.
                2 => *surface = Surface::copy_of(surface).unwrap(),
                3 => *surface = Surface::new(width, height).unwrap(),
                _ => {}
            }
            viewer.follow(surface).unwrap();
            let is_viewed = random.below(3) == 0;
            let screen = if is_viewed { viewer.screen() } else { surface };
            if random.below(9) == 0 {
                show_and_assume(&mut renderer, &mut model, screen);
            }
            let mut out = Vec::new();
            renderer.show(&mut out, screen).unwrap();
            model.feed(&out);
            check(&model, screen, &format!("seed {seed}, step {step}"));
        }
    }
}

/// Another renderer shows a screen, which then is assumed.
fn show_and_assume(renderer: &mut Renderer, model: &mut Model, screen: &Screen) {
    let mut out = Vec::new();
    renderer.end(&mut out).unwrap();
    let mut other = Renderer::new(*renderer.options());
    other.show(&mut out, screen).unwrap();
    other.end(&mut out).unwrap();
    model.feed(&out);
    renderer.assume(screen).unwrap();
}

#[test]
fn one_screen_becomes_another() {
    for seed in 0..seeds(50) {
        let mut random = Random::new(seed + 3000);
        let (width, height) = random.one_of(&SIZES);
        let [mut old, mut new] = [0; 2].map(|_| Surface::new(width, height).unwrap());
        for _ in 0..4 {
            old.add(&random.changes(width, height)).unwrap();
        }
        new.draw_from_screen(&old, 0, 0).unwrap();
        new.add(&random.changes(width, height)).unwrap();
        let mut model = Model::new(width, height);
        let mut out = Vec::new();
        Renderer::new(Options::new(width, height))
            .show(&mut out, &old)
            .unwrap();
        model.feed(&out);

        out.clear();
        let mut renderer = Renderer::new(Options::new(width, height));
        renderer.assume(&old).unwrap();
        renderer.reset();
        renderer.assume(&old).unwrap();
        renderer.show(&mut out, &new).unwrap();
        model.feed(&out);
        if !new.title().unwrap().is_empty() || model.titles.is_empty() {
            check(&model, &new, &format!("seed {seed}"));
        }
    }
}

#[test]
fn lines_may_be_large() {
    use LineAttribute::{DoubleHeightTopHalfLine, DoubleWidthLine, SingleWidthLine};
    for seed in 0..seeds(50) {
        let mut random = Random::new(seed + 4000);
        let (width, height) = random.one_of(&SIZES);
        let mut surface = Surface::new(width, height).unwrap();
        let options = Options::new(width, height).line_attributes(true);
        let mut renderer = Renderer::new(options);
        let mut model = Model::new(width, height);
        model.lines = vec!['6'; height];
        for step in 0..8 {
            surface.add(&random.changes(width, height)).unwrap();
            let large = [SingleWidthLine, DoubleWidthLine, DoubleHeightTopHalfLine];
            let mut changes = Changes::new();
            changes.move_to(0, random.below(height));
            surface
                .add(changes.line_attribute(random.one_of(&large)))
                .unwrap();
            let mut out = Vec::new();
            renderer.show(&mut out, &surface).unwrap();
            model.feed(&out);
            for (number, row) in model.rows.iter().enumerate() {
                let attribute = surface.row(number).line_attribute().unwrap();
                let (code, width) = match attribute {
                    SingleWidthLine => ('5', width),
                    DoubleWidthLine => ('6', (width / 2).max(1)),
                    _ => ('3', (width / 2).max(1)),
                };
                assert_eq!(model.lines[number], code, "seed {seed}, step {step}");
                let wanted = shown_row(&surface, number, width);
                let what = format!("seed {seed}, step {step}");
                check_row(&row[..width], &wanted, model.measure, &what);
            }
        }
    }
}

/// Fails after this many bytes.
struct Failing {
    left: usize,
}

impl Write for Failing {
    fn write(&mut self, bytes: &[u8]) -> io::Result<usize> {
        if self.left == 0 {
            return Err(io::ErrorKind::BrokenPipe.into());
        }
        let taken = bytes.len().min(self.left);
        self.left -= taken;
        Ok(taken)
    }

    fn flush(&mut self) -> io::Result<()> {
        Ok(())
    }
}

#[test]
fn all_is_written_after_a_failure() {
    for seed in 0..100 {
        let mut random = Random::new(seed + 5000);
        let (width, height) = random.one_of(&SIZES);
        let mut renderer = Renderer::new(Options::new(width, height).synchronized(true));
        let mut surface = Surface::new(width, height).unwrap();
        let changes = random.changes(width, height);
        surface.add(&changes).unwrap();
        renderer.changes(&mut Vec::new(), &changes).unwrap();
        let changes = random.changes(width, height);
        surface.add(&changes).unwrap();
        let mut out = Failing {
            left: random.below(9),
        };
        match renderer.changes(&mut out, &changes) {
            Ok(()) => continue, // few bytes were enough
            Err(Error::Write(error)) => assert_eq!(error.kind(), io::ErrorKind::BrokenPipe),
            Err(error) => panic!("{error}"),
        }
        // The terminal may be in any state.
        let mut model = Model::new(width, height);
        let mut bytes = Vec::new();
        renderer.changes(&mut bytes, &Changes::new()).unwrap();
        assert!(bytes.starts_with(b"\x1b\\\x1b[r\x1b[?2026l"));
        model.feed(&bytes);
        let title = surface.title().unwrap();
        if !title.is_empty() {
            assert_eq!(model.title, title.replace(char::is_control, ""));
        }
        model.title = "own".into();
        model.titles.clear();
        surface.add(Changes::new().title("")).unwrap();
        check(&model, &surface, &format!("seed {seed}"));
    }
}
