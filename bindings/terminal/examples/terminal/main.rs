//! Prints the screen that its input leaves on a terminal, and says how long that took. With `log`
//! after the size the surface keeps its changes, as for viewers. With `keep` and a number there,
//! the terminal keeps that many of the rows that scroll off last, and says how many it has.
//!
//! `python3 examples/terminal/frames.py 100 | cargo run --release --example terminal -- 80 24`

use std::error::Error;
use std::io::{self, Read};
use std::{env, time::Instant};
use tikeburo_terminal::Terminal;

fn main() -> Result<(), Box<dyn Error>> {
    let words: Vec<_> = env::args().skip(1).collect();
    let mut size = words.iter().take(2).map(|word| word.parse());
    let width = size.next().unwrap_or(Ok(80))?;
    let height = size.next().unwrap_or(Ok(24))?;
    let mut bytes = Vec::new();
    io::stdin().read_to_end(&mut bytes)?;
    let mut terminal = Terminal::new(width, height)?;
    let place = |word| words.iter().skip(2).position(|it| it == word);
    terminal.surface_mut().keep_changes(place("log").is_some());
    if let Some(at) = place("keep") {
        let limit = words.get(at + 3).ok_or("no number behind `keep`")?;
        terminal.keep_scrollback(limit.parse()?)?;
    }
    let begin = Instant::now();
    for chunk in bytes.chunks(4096) {
        terminal.feed(chunk)?;
    }
    eprintln!("{} bytes in {:?}", bytes.len(), begin.elapsed());
    if let Some(lines) = terminal.scrollback() {
        eprintln!("{} lines are kept", lines.len());
    }
    print!("{}", terminal.surface());
    Ok(())
}
