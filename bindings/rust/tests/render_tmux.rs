//! What a renderer writes is shown by tmux, where that is there: random screens are sent through a
//! pane, and what the pane shows is compared with the screen.

use std::fs;
use std::io::Write;
use std::path::{Path, PathBuf};
use std::process::{self, Command, Output};
use std::time::{Duration, Instant};
use tikeburo::render::{Options, Renderer};
use tikeburo::{
    Attributes, Changes, ColorAttribute, Intensity, RgbColor, Screen, Surface, Underline,
};

const WIDTH: usize = 40;
const HEIGHT: usize = 12;
const SCREENS: usize = 1000;

/// Texts that tmux measures as Unicode does.
const TEXTS: [&str; 12] = [
    "a",
    "words of a line ",
    "xyz",
    "   ",
    "か",
    "漢字",
    "e\u{301}",
    "─",
    "\r\n",
    "\n",
    "×",
    "01234567",
];

/// A server of tmux with one pane, in a folder of its own.
struct Pane {
    folder: PathBuf,
}

impl Pane {
    /// Begins a pane in which a shell copies what is written to a pipe.
    fn new() -> Option<Pane> {
        let folder = std::env::temp_dir().join(format!("tikeburo-tmux-{}", process::id()));
        fs::create_dir(&folder).ok()?;
        let pane = Pane { folder };
        let pipe = pane.folder.join("pipe");
        Command::new("mkfifo").arg(&pipe).status().ok()?;
        let program = format!("stty raw -echo; exec cat '{}'", pipe.display());
        let size = [WIDTH, HEIGHT].map(|it| it.to_string());
        let words = [
            "-f",
            "/dev/null",
            "new-session",
            "-d",
            "-x",
            &size[0],
            "-y",
            &size[1],
        ];
        let begun = pane.tmux(&[&words[..], &[&program]].concat());
        begun.filter(|output| output.status.success())?;
        pane.tmux(&["set-option", "-g", "status", "off"])?;
        Some(pane)
    }

    /// Calls tmux, and returns what it prints.
    fn tmux(&self, words: &[&str]) -> Option<Output> {
        let mut command = Command::new("tmux");
        command
            .arg("-S")
            .arg(self.folder.join("socket"))
            .args(words);
        command
            .env_remove("TMUX")
            .env("LC_ALL", "C.UTF-8")
            .output()
            .ok()
    }

    fn print(&self, words: &[&str]) -> String {
        let output = self.tmux(words).unwrap();
        assert!(output.status.success(), "{output:?}");
        String::from_utf8(output.stdout).unwrap()
    }

    fn pipe(&self) -> fs::File {
        let pipe: &Path = &self.folder.join("pipe");
        fs::OpenOptions::new().write(true).open(pipe).unwrap()
    }
}

impl Drop for Pane {
    fn drop(&mut self) {
        let _ended = self.tmux(&["kill-server"]);
        let _removed = fs::remove_dir_all(&self.folder);
    }
}

/// The next of a row of numbers, below a limit.
fn below(state: &mut u64, limit: usize) -> usize {
    *state = state
        .wrapping_mul(6_364_136_223_846_793_005)
        .wrapping_add(1_442_695_040_888_963_407);
    (*state >> 33) as usize % limit
}

/// A pen that `capture-pane` of tmux 3.3 prints as it is: without a line above texts, and a link.
fn pen(state: &mut u64) -> Attributes {
    let mut rarely = || below(state, 4) == 0;
    let (italic, reverse, strikethrough) = (rarely(), rarely(), rarely());
    let underline = if rarely() {
        Underline::Curly
    } else {
        Underline::None
    };
    let intensity = if rarely() {
        Intensity::Bold
    } else {
        Intensity::Normal
    };
    let mut color = || match below(state, 5) {
        0 => RgbColor::new_8bpc(255, 128, 7).into(),
        1 => ColorAttribute::PaletteIndex(200),
        2 => ColorAttribute::PaletteIndex(9),
        _ => ColorAttribute::Default,
    };
    Attributes {
        foreground: color(),
        background: color(),
        intensity,
        underline,
        italic,
        reverse,
        strikethrough,
        ..Attributes::default()
    }
}

fn changes(state: &mut u64) -> Changes {
    let mut changes = Changes::new();
    for _ in 0..below(state, 14) {
        let first = below(state, HEIGHT - 2);
        let rows = 2 + below(state, HEIGHT - first - 1);
        match below(state, 12) {
            0..=5 => changes.text(TEXTS[below(state, TEXTS.len())]),
            6 => changes.pen(&pen(state)),
            7 => changes.move_to(below(state, WIDTH), below(state, HEIGHT)),
            8 => changes.clear_to_end_of_line(pen(state).background),
            9 => changes.clear_columns(below(state, 15), pen(state).background),
            10 => changes.scroll_up(first, rows.min(HEIGHT - first), 1 + below(state, 2)),
            _ => changes.scroll_down(first, rows.min(HEIGHT - first), 1),
        };
    }
    changes
}

/// A text and its pen, of which a blank has what is seen.
fn seen(text: &str, pen: &Attributes) -> (String, Attributes) {
    let has_marks =
        pen.reverse || pen.strikethrough || pen.overline || pen.underline != Underline::None;
    let pen = if text == " " && !has_marks {
        Attributes {
            background: pen.background,
            ..Attributes::default()
        }
    } else {
        Attributes {
            wrapped: false,
            ..pen.clone()
        }
    };
    (text.into(), pen)
}

fn row_of_screen(screen: &Screen, row: usize) -> Vec<(String, Attributes)> {
    let mut cells = Vec::new();
    let mut column = 0;
    for cell in screen.row(row).cells() {
        let cell = cell.unwrap();
        column += cell.width();
        let is_cut = column > WIDTH || cell.width() == 2 && column == WIDTH + 1;
        cells.push(seen(if is_cut { " " } else { cell.str() }, cell.attrs()));
    }
    cells
}

/// A row as `capture-pane -e` prints it: texts and SGR. What was erased is left out at its end.
fn row_of_pane(line: &str, pen: &mut Attributes) -> Vec<(String, Attributes)> {
    let mut cells = Vec::new();
    let mut rest = line;
    while !rest.is_empty() {
        if let Some(sequence) = rest.strip_prefix("\x1b[") {
            let (params, behind) = sequence.split_once('m').unwrap();
            let numbers = |param: &str| -> Vec<u16> {
                param.split(':').map(|it| it.parse().unwrap_or(0)).collect()
            };
            let params: Vec<_> = params.split(';').map(numbers).collect();
            pen.apply_sgr(params.iter().map(Vec::as_slice));
            rest = behind;
            continue;
        }
        let end = rest.find('\x1b').unwrap_or(rest.len());
        let texts = tikeburo::graphemes(&rest[..end], tikeburo::Widths::Unicode).unwrap();
        cells.extend(texts.iter().map(|(text, _)| seen(text, pen)));
        rest = &rest[end..];
    }
    cells
}

fn check(pane: &Pane, screen: &Screen, step: usize) {
    let captured = pane.print(&["capture-pane", "-e", "-p", "-N"]);
    let mut pen = Attributes::default();
    let lines: Vec<_> = captured.lines().collect();
    assert_eq!(lines.len(), HEIGHT, "step {step}");
    for (row, line) in lines.iter().enumerate() {
        let shown = row_of_pane(line, &mut pen);
        let wanted = row_of_screen(screen, row);
        let (wanted, erased) = wanted.split_at(shown.len());
        assert!(
            erased.iter().all(|(text, _)| text == " "),
            "step {step}, row {row}: {line:?}"
        );
        for (place, (shown, wanted)) in shown.iter().zip(wanted).enumerate() {
            assert_eq!(
                shown, wanted,
                "step {step}, row {row}, text {place}: {line:?}"
            );
        }
        assert_eq!(
            shown.len(),
            wanted.len(),
            "step {step}, row {row}: {line:?}"
        );
    }
    let (column, row) = screen.cursor_position();
    let cursor = pane.print(&["display-message", "-p", "#{cursor_x},#{cursor_y}"]);
    assert_eq!(
        cursor.trim(),
        format!("{},{row}", column.min(WIDTH - 1)),
        "step {step}"
    );
}

/// Waits until the pane says this of a format.
fn wait_for(pane: &Pane, format: &str, wanted: &str) {
    let end = Instant::now() + Duration::from_secs(20);
    while pane.print(&["display-message", "-p", format]).trim() != wanted {
        assert!(Instant::now() < end, "{format} never was {wanted}");
        std::thread::sleep(Duration::from_millis(10));
    }
}

#[test]
fn tmux_shows_the_screen() {
    if Command::new("tmux").arg("-V").output().is_err() {
        eprintln!("tmux isn't there: nothing is compared");
        return;
    }
    let pane = Pane::new().expect("a pane");
    wait_for(&pane, "#{pane_current_command}", "cat");
    let mut pipe = pane.pipe();
    let mut surface = Surface::new(WIDTH, HEIGHT).unwrap();
    let mut renderer = Renderer::new(Options::new(WIDTH, HEIGHT));
    let mut state = 7;
    for step in 0..SCREENS {
        surface.add(&changes(&mut state)).unwrap();
        renderer.show(&mut pipe, &surface).unwrap();
        let title = format!("step {step}");
        write!(pipe, "\x1b]2;{title}\x1b\\").unwrap();
        wait_for(&pane, "#{pane_title}", &title); // which is written last
        check(&pane, &surface, step);
    }
}
