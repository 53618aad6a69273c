//! Runs two programs side by side on 80 columns and 24 rows, until both have ended, as
//! `panes 'ls -l' 'git log --color'`. A client on a thread of its own asks for what is new; in the
//! end the screen that it shows is printed as an error.

use std::io::{self, Read};
use std::process::{Command, Stdio};
use std::sync::mpsc::{channel, Sender};
use std::time::Duration;
use std::{env, error::Error, thread};
use tikeburo::render::{Options, Renderer};
use tikeburo::{Ask, Changes, Client, Surface};
use tikeburo_terminal::Terminal;

const WIDTH: usize = 80;
const HEIGHT: usize = 24;
const PANE: usize = (WIDTH - 1) / 2;

/// What comes to the thread that has the screen.
enum Event {
    Output(usize, Vec<u8>), // of the program in this pane: no bytes at its end
    Asked(Ask, Sender<Vec<u8>>),
}

/// Runs a program, and sends what it writes.
fn run(pane: usize, command: &str, events: Sender<Event>) -> io::Result<()> {
    let mut shell = Command::new("sh");
    let shell = shell.args(["-c", &format!("exec 2>&1; {command}")]);
    let mut child = shell.stdin(Stdio::null()).stdout(Stdio::piped()).spawn()?;
    thread::spawn(move || {
        let mut room = [0; 4096];
        while let Some(Ok(length @ 1..)) = child.stdout.as_mut().map(|it| it.read(&mut room)) {
            let _ = events.send(Event::Output(pane, room[..length].to_vec()));
        }
        let _ = child.wait();
        events.send(Event::Output(pane, Vec::new()))
    });
    Ok(())
}

/// Asks ten times a second, until nobody answers, and returns what the client shows then.
fn watch(events: Sender<Event>) -> Result<String, tikeburo::Error> {
    let mut client = Client::new()?;
    let (reply, answers) = channel();
    loop {
        let asked = Event::Asked(client.ask()?, reply.clone());
        if events.send(asked).is_err() {
            return Ok(client.screen().to_string());
        }
        // The last ask may stay without an answer.
        while let Ok(answer) = answers.recv_timeout(Duration::from_millis(100)) {
            client.feed(&answer)?;
        }
    }
}

/// The screen with a line between the panes.
fn framed() -> Result<Surface, tikeburo::Error> {
    let mut screen = Surface::new(WIDTH, HEIGHT)?;
    let mut changes = Changes::new();
    for row in 0..HEIGHT {
        changes.move_to(PANE, row).text("│");
    }
    screen.add(&changes)?;
    Ok(screen)
}

fn main() -> Result<(), Box<dyn Error>> {
    let words: Vec<_> = env::args().skip(1).collect();
    let [left, right] = &words[..] else {
        return Err("usage: panes LEFT RIGHT".into());
    };
    let (sender, events) = channel();
    let watching = sender.clone();
    let client = thread::spawn(move || watch(watching));
    let mut panes = [Terminal::new(PANE, HEIGHT)?, Terminal::new(PANE, HEIGHT)?];
    for (pane, command) in [left, right].into_iter().enumerate() {
        panes[pane].feed(b"\x1b[20h")?; // line feeds return, since there is no pty
        run(pane, command, sender.clone())?;
    }
    let (mut screen, mut running) = (framed()?, panes.len());
    let mut renderer = Renderer::new(Options::new(WIDTH, HEIGHT));
    loop {
        match events.recv()? {
            Event::Output(_, bytes) if bytes.is_empty() => running -= 1,
            Event::Output(pane, bytes) => {
                panes[pane].feed(&bytes)?;
                screen.draw_from_screen(panes[pane].surface(), pane * (PANE + 1), 0)?;
                renderer.show(&mut io::stdout(), &screen)?;
            }
            // A client that lacks nothing at the end isn't answered.
            Event::Asked(ask, _) if running == 0 && ask == screen.current_ask() => break,
            Event::Asked(ask, reply) => reply.send(screen.respond(&ask)?)?,
        }
    }
    drop(events);
    renderer.end(&mut io::stdout())?;
    eprint!("{}", client.join().map_err(|_| "the client failed")??);
    Ok(())
}
