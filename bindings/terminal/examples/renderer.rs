//! Shows a recorded session: it is played in parts, and after each one the window is sent what it
//! lacks. The window has to have the session's size, 80 columns and 24 rows unless others are named.
//!
//! `python3 examples/terminal/recordings.py editor 40 | cargo run --example renderer -- 80 24`

use std::env;
use std::error::Error;
use std::io::{self, Read};
use tikeburo::render::{Options, Renderer};
use tikeburo_terminal::Terminal;

fn main() -> Result<(), Box<dyn Error>> {
    let mut size = env::args().skip(1).map(|word| word.parse());
    let width = size.next().unwrap_or(Ok(80))?;
    let height = size.next().unwrap_or(Ok(24))?;
    let mut bytes = Vec::new();
    io::stdin().read_to_end(&mut bytes)?;
    let mut terminal = Terminal::new(width, height)?;
    let mut renderer = Renderer::new(Options::new(width, height));
    let mut out = io::stdout().lock();
    for part in bytes.chunks(512) {
        terminal.feed(part)?;
        renderer.show(&mut out, terminal.surface())?;
    }
    Ok(renderer.end(&mut out)?)
}
