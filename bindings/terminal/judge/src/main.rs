//! Plays what programs wrote to three terminals of 80x24, and compares what they show.
//!
//! ```text
//! judge FILE..           bytes of programs: after each 97 of them one of the others shows the same
//! judge --random COUNT   random programs: where both others agree, they show the same
//! ```
//!
//! Compared are texts, colours, boldness, slant, underlines, inverse cells, and the cursor. The
//! others know fewer sequences, and erase and wrap in ways of their own.

mod alacritty;
mod ours;
mod random;
mod vt;

use alacritty::Alacritty;
use ours::Ours;
use std::process::ExitCode;
use std::{env, fs};
use vt::Vt;

/// How many bytes come between two comparisons.
const DISTANCE: usize = 97;

/// A colour: the default one, one of the palette, or a true one.
#[derive(Clone, Copy, PartialEq, Eq, Debug)]
enum Color {
    Default,
    Index(u8),
    Rgb(u8, u8, u8),
}

/// What a cell shows: of a wide grapheme its first column has all.
#[derive(Clone, PartialEq, Eq, Debug)]
struct Shown {
    text: String,
    foreground: Color,
    background: Color,
    is_bold: bool,
    is_italic: bool,
    is_underlined: bool,
    is_inverse: bool,
}

/// What a terminal shows: its rows of cells, and the cursor's column and row. The column is the
/// width where a wrap is pending in the last one.
#[derive(PartialEq, Eq, Debug)]
struct Screen {
    rows: Vec<Vec<Option<Shown>>>,
    cursor: (usize, usize),
}

trait Terminal {
    fn new(width: usize, height: usize) -> Self
    where
        Self: Sized;

    fn feed(&mut self, bytes: &[u8]);

    fn screen(&self) -> Screen;
}

/// The screen that a new terminal shows after these bytes.
fn shown_by<T: Terminal>((width, height): (usize, usize), bytes: &[u8]) -> Screen {
    let mut terminal = T::new(width, height);
    terminal.feed(bytes);
    terminal.screen()
}

/// The first difference of two screens.
fn difference(first: &Screen, second: &Screen) -> Option<String> {
    for (y, (row, other)) in first.rows.iter().zip(&second.rows).enumerate() {
        let mut pairs = row.iter().zip(other);
        if let Some(x) = pairs.position(|(cell, other)| cell != other) {
            return Some(format!(
                "column {x} of row {y}: {:?}, not {:?}",
                row[x], other[x]
            ));
        }
    }
    let are_equal = first.cursor == second.cursor;
    (!are_equal).then(|| format!("the cursor: {:?}, not {:?}", first.cursor, second.cursor))
}

/// Compares the terminals on the bytes of a program. Returns how many screens were compared, and
/// how many of these each of the others shows in another way, or the first one that neither shows.
fn judge(bytes: &[u8]) -> Result<[usize; 3], String> {
    let mut ours = Ours::new(80, 24);
    let (mut alacritty, mut vt) = (Alacritty::new(80, 24), Vt::new(80, 24));
    let mut counts = [0; 3];
    for part in bytes.chunks(DISTANCE) {
        ours.feed(part);
        alacritty.feed(part);
        vt.feed(part);
        let screen = ours.screen();
        let others = [alacritty.screen(), vt.screen()].map(|it| difference(&screen, &it));
        counts[0] += 1;
        counts[1] += usize::from(others[0].is_some());
        counts[2] += usize::from(others[1].is_some());
        if let [Some(first), Some(second)] = others {
            let at = DISTANCE * counts[0];
            return Err(format!(
                "before byte {at} neither of the others shows the same: alacritty_terminal differs \
                 in {first}, and vt100 in {second}"
            ));
        }
    }
    Ok(counts)
}

fn judge_files(names: &[String]) -> Result<(), String> {
    for name in names {
        let bytes = fs::read(name).map_err(|error| format!("{name}: {error}"))?;
        let [count, first, second] = judge(&bytes).map_err(|what| format!("{name}: {what}"))?;
        println!(
            "{name}: {count} screens; alacritty_terminal shows {first} otherwise, vt100 {second}"
        );
    }
    Ok(())
}

/// Compares the terminals on random programs, where the two others agree.
fn judge_random(count: usize) -> Result<(), String> {
    let mut agreed = 0;
    for seed in 0..count {
        let (size, program) = random::program(seed);
        let (alacritty, vt) = (
            shown_by::<Alacritty>(size, program.as_bytes()),
            shown_by::<Vt>(size, program.as_bytes()),
        );
        if alacritty != vt {
            continue;
        }
        agreed += 1;
        if let Some(what) = difference(&shown_by::<Ours>(size, program.as_bytes()), &vt) {
            return Err(format!(
                "{size:?} {program:?}: both others differ in {what}"
            ));
        }
    }
    println!("{agreed} random programs of {count} that both others show alike");
    Ok(())
}

fn main() -> ExitCode {
    let words: Vec<String> = env::args().skip(1).collect();
    let outcome = match words.split_first() {
        Some((word, rest)) if word == "--random" => {
            judge_random(rest.first().and_then(|it| it.parse().ok()).unwrap_or(1000))
        }
        _ => judge_files(&words),
    };
    if let Err(what) = outcome {
        eprintln!("{what}");
        return ExitCode::FAILURE;
    }
    ExitCode::SUCCESS
}
