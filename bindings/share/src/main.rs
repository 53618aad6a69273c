//! Runs a program in a terminal, and shows that in any number of browsers: `share -- htop`.
//!
//! The thread that starts here has the surface ([`session`]). Two others read what the program
//! writes, and the keys; one waits for its end; and few more serve all viewers ([`http`]), who wait
//! at the [`hub`] for what is new. The program waits for none of them but the first.

mod http;
mod hub;
mod inbox;
mod options;
mod program;
mod record;
mod served;
mod session;
mod signals;
mod ticks;
mod window;

use clap::Parser;
use http::{Connections, Hosts, Site, Token};
use hub::Hub;
use inbox::Inbox;
use options::Options;
use program::{Files, Program};
use session::{Outcome, Parts, Session};
use std::fs::File;
use std::io::{self, stdin, stdout, ErrorKind, IsTerminal, Read, Write};
use std::os::fd::AsFd;
use std::path::Path;
use std::process::ExitCode;
use std::sync::Arc;
use std::{error, fmt, thread};
use tikeburo::{Change, Recorder};
use tikeburo_terminal::Terminal;
use tokio::runtime::{Builder, Runtime};
use window::Window;

const SERVERS: usize = 2; // threads
const MOST_CONNECTIONS: usize = 20_000;
const OTHER_FILES: usize = 64; // that may be open beside connections
const FAILED: u8 = 2;

type Failure = Box<dyn error::Error + Send + Sync>;

/// Names what an error is about: an option, a file or a program.
fn about<E: fmt::Display>(what: impl fmt::Display) -> impl FnOnce(E) -> Failure {
    move |error| format!("{what}: {error}").into()
}

/// The threads that serve viewers.
fn make_runtime() -> io::Result<Runtime> {
    let mut builder = Builder::new_multi_thread();
    builder.worker_threads(SERVERS).enable_all().build()
}

/// Listens, prints the address, and serves it.
fn listen(options: &Options, files: Files, hub: &Arc<Hub>) -> Result<Arc<Connections>, Failure> {
    let token = match &options.token {
        Some(path) => Token::kept_in(path).map_err(about(format!("--token {}", path.display())))?,
        None => Token::random()?,
    };
    let (address, option) = options.listen();
    let listener = http::bind(address).map_err(about(format!("{option} {address}")))?;
    let listened = listener.local_addr()?;
    match &options.url {
        Some(url) => eprintln!("{url}/{token}/?pull"),
        None => eprintln!("http://{listened}/{token}/?pull"),
    }
    let (hub, hosts) = (Arc::clone(hub), Hosts::new(listened, options.url.as_ref()));
    let most = files
        .most()
        .saturating_sub(OTHER_FILES)
        .clamp(1, MOST_CONNECTIONS);
    let connections = Connections::new(most);
    let site = Arc::new(Site { hub, token, hosts });
    tokio::spawn(http::serve(listener, site, Arc::clone(&connections)));
    Ok(connections)
}

fn wait_for_enter(options: &Options) -> io::Result<()> {
    if !options.no_wait && stdin().is_terminal() {
        eprintln!("Press Enter to start.");
        stdin().read_line(&mut String::new())?;
    }
    Ok(())
}

/// Runs the program, and opens the file of its recording.
fn start(options: &Options, files: Files) -> Result<(Program, Option<Recorder<File>>), Failure> {
    let path = options.record.as_deref();
    let name = || format!("--record {}", path.unwrap_or("".as_ref()).display());
    let place = path
        .map(record::Place::open)
        .transpose()
        .map_err(about(name()))?;
    match Program::run(&options.command, window::size(), files) {
        Ok(program) => {
            let file = place
                .map(record::Place::begin)
                .transpose()
                .map_err(about(name()))?;
            Ok((program, file.map(Recorder::new)))
        }
        Err(error) => {
            place.into_iter().for_each(record::Place::leave);
            Err(about(options.command[0].to_string_lossy())(error))
        }
    }
}

/// Passes on what the program writes, to the window and to the surface's thread.
fn pass_output(mut pty: File, mut window: File, inbox: &Inbox) {
    let mut room = vec![0; 1 << 16];
    loop {
        match pty.read(&mut room) {
            Ok(length @ 1..) => {
                let _ = window.write_all(&room[..length]); // it may be gone
                inbox.push(&room[..length]);
            }
            Err(error) if error.kind() == ErrorKind::Interrupted => {}
            _ => return inbox.note(|news| news.is_closed = true),
        }
    }
}

/// Starts the threads that stand beside the surface's.
fn start_threads(program: &Program, inbox: &Arc<Inbox>) -> io::Result<()> {
    let (output, mut keys, id) = (program.pty()?, program.pty()?, program.id());
    let window = File::from(stdout().as_fd().try_clone_to_owned()?);
    let (written, ended) = (Arc::clone(inbox), Arc::clone(inbox));
    thread::spawn(move || pass_output(output, window, &written));
    thread::spawn(move || io::copy(&mut stdin(), &mut keys));
    thread::spawn(move || {
        program::wait_for(id);
        ended.note(|news| news.has_ended = true);
    });
    Ok(())
}

/// A terminal that has the program's name for a title, until the program sets one.
fn make_terminal(options: &Options) -> Result<Terminal, tikeburo::Error> {
    let (width, height) = window::size();
    let mut terminal = Terminal::new(width.into(), height.into())?;
    let name = Path::new(&options.command[0])
        .file_name()
        .unwrap_or_default();
    let title = name.to_string_lossy().into_owned();
    terminal.surface_mut().add_change(Change::Title(title))?;
    Ok(terminal)
}

fn run(options: &Options) -> Result<Outcome, Failure> {
    let files = program::raise_files()?;
    let inbox = Arc::new(Inbox::default());
    let wake = Arc::clone(&inbox);
    let hub = Arc::new(Hub::new(move || wake.note(|news| news.is_asked = true)));
    let runtime = make_runtime()?;
    let _context = runtime.enter();
    let connections = listen(options, files, &hub)?;
    wait_for_enter(options)?;
    let terminal = make_terminal(options)?;
    let (program, recorder) = start(options, files)?;
    signals::note(&inbox)?;
    let window = Window::take();
    start_threads(&program, &inbox)?;
    let session = Session::new(Parts {
        terminal,
        program,
        window,
        hub,
        inbox,
        connections,
        recorder,
        is_behind: options.url.is_some(),
    });
    let outcome = session.run()?;
    drop(_context);
    runtime.shutdown_background();
    Ok(outcome)
}

fn main() -> ExitCode {
    let options = Options::parse();
    match run(&options) {
        Ok(Outcome { status, unrecorded }) => {
            if let (Some(error), Some(path)) = (unrecorded, options.record) {
                eprintln!("share: --record {}: {error}", path.display());
            }
            ExitCode::from(status.unwrap_or(FAILED))
        }
        Err(error) => {
            eprintln!("share: {error}");
            ExitCode::from(FAILED)
        }
    }
}
