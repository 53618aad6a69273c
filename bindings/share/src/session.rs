//! The thread that has the surface: what the program writes goes there, and viewers get it from
//! there. It sees to the program's end, and to signals.

use crate::http::Connections;
use crate::hub::{End, Hub, Screen};
use crate::inbox::{Inbox, News};
use crate::program::Program;
use crate::served::Served;
use crate::ticks::{Ticks, Turn};
use crate::window::{self, Window};
use nix::sys::signal::Signal;
use std::fs::File;
use std::io;
use std::sync::Arc;
use std::time::{Duration, Instant};
use tikeburo::{Change, Error, Recorder};
use tikeburo_terminal::Terminal;

/// How long a program may go on after a signal that asks it to end. Then it is killed.
const GRACE: Duration = Duration::from_secs(3);
/// How long after the close of its terminal a program may end, so that viewers learn its status; and
/// how long after its end the last of its output may come.
const BRIEFLY: Duration = Duration::from_millis(300);
/// How long viewers have to get the last screen, and those behind proxies, whom nobody counts.
const LAST: Duration = Duration::from_secs(2);
const LAST_BEHIND: Duration = Duration::from_secs(5);
/// How long a viewer may take that is about to ask.
const GAP: Duration = Duration::from_millis(300);
/// How often the viewers that are left are counted.
const LOOK: Duration = Duration::from_millis(20);

/// Where a session has come to.
#[derive(Clone, Copy, PartialEq)]
enum Stage {
    Runs,
    /// The program has closed its terminal, or has ended; the other event may come until then.
    Closes {
        until: Instant,
    },
    /// The screen has ended, and viewers get the last one.
    Ends {
        since: Instant,
    },
}

/// What a session works with.
pub struct Parts {
    pub terminal: Terminal,
    pub program: Program,
    pub window: Window,
    pub hub: Arc<Hub>,
    pub inbox: Arc<Inbox>,
    pub connections: Arc<Connections>,
    pub recorder: Option<Recorder<File>>,
    pub is_behind: bool, // a proxy, so that viewers can't be counted
}

/// A program that runs, and the screen that viewers see of it.
pub struct Session {
    parts: Parts,
    ticks: Ticks,
    stage: Stage,
    is_closed: bool,         // the terminal, by the program
    has_ended: bool,         // the program
    is_hurried: bool,        // by a signal, after its end
    status: Option<u8>,      // of the program
    killed: Option<Instant>, // when the program is killed
    unrecorded: Option<io::Error>,
}

/// What a session came to.
pub struct Outcome {
    /// The program's exit status.
    pub status: Option<u8>,
    /// Why the recording ended before the program did.
    pub unrecorded: Option<io::Error>,
}

impl Session {
    pub fn new(parts: Parts) -> Session {
        Session {
            parts,
            ticks: Ticks::new(Instant::now()),
            stage: Stage::Runs,
            is_closed: false,
            has_ended: false,
            is_hurried: false,
            status: None,
            killed: None,
            unrecorded: None,
        }
    }

    /// Shows what the program writes, until it has ended and viewers have the last screen.
    ///
    /// # Errors
    ///
    /// Those of the surface.
    pub fn run(mut self) -> Result<Outcome, Error> {
        let mut news = News::default();
        self.fit()?;
        while !self.is_over() {
            self.parts.inbox.wait(&mut news, self.next_time());
            self.take(&news)?;
            self.tick(news.is_asked)?;
            self.proceed()?;
        }
        let Session {
            status, unrecorded, ..
        } = self;
        Ok(Outcome { status, unrecorded })
    }

    /// Whether the program has ended, and no viewer is left that lacks the end.
    fn is_over(&self) -> bool {
        let Stage::Ends { since } = self.stage else {
            return false;
        };
        let Parts {
            connections,
            is_behind,
            ..
        } = &self.parts;
        let last = if *is_behind { LAST_BEHIND } else { LAST };
        let gap = if connections.was_followed() {
            GAP
        } else {
            Duration::ZERO
        };
        let is_seen = !is_behind && connections.following() == 0 && since.elapsed() >= gap;
        self.has_ended && (is_seen || self.is_hurried || since.elapsed() >= last)
    }

    /// When there is something to do, whatever comes.
    fn next_time(&self) -> Option<Instant> {
        let staged = match self.stage {
            Stage::Runs => Some(self.ticks.next()),
            Stage::Closes { until } => Some(until),
            Stage::Ends { .. } => self.has_ended.then(|| Instant::now() + LOOK),
        };
        staged.into_iter().chain(self.killed).min()
    }

    fn take(&mut self, news: &News) -> Result<(), Error> {
        if news.is_resized {
            self.fit()?;
        }
        self.parts.terminal.feed(&news.output)?;
        self.report();
        if news.has_ended {
            self.has_ended = true;
            self.status = self.parts.program.status();
            self.killed = None;
        }
        self.is_closed |= news.is_closed;
        news.signals.iter().for_each(|signal| self.pass_on(*signal));
        Ok(())
    }

    /// Gives the terminal the window's size.
    fn fit(&mut self) -> Result<(), Error> {
        let (width, height) = window::size();
        let Parts {
            program, terminal, ..
        } = &mut self.parts;
        let _ = program.resize((width, height)); // it may have ended
        let (width, height) = (width.into(), height.into());
        match terminal.surface().dimensions() == (width, height) {
            true => Ok(()),
            false => terminal.resize(width, height),
        }
    }

    /// Answers what the program asks its terminal, where no window does.
    fn report(&mut self) {
        let reports = self.parts.terminal.take_reports();
        if !self.parts.window.shows {
            let _ = self.parts.program.send(&reports); // it may have ended
        }
    }

    /// Passes a signal on to the program, and kills one that goes on after a hang-up or a request to
    /// end. An interrupt is such a request only where the program has closed its terminal.
    fn pass_on(&mut self, signal: Signal) {
        if self.has_ended {
            self.is_hurried = true;
            return;
        }
        self.parts.program.signal(signal);
        let is_key = matches!(signal, Signal::SIGINT | Signal::SIGQUIT);
        if !is_key || self.is_closed {
            let now = Instant::now();
            self.killed = Some(self.killed.map_or(now + GRACE, |_| now));
        }
    }

    /// Gives viewers what is new, where it is time, and answers those that lack more.
    fn tick(&mut self, is_asked: bool) -> Result<(), Error> {
        let (now, surface) = (Instant::now(), self.parts.terminal.surface_mut());
        let is_beat = self.stage == Stage::Runs && self.ticks.is_beat(now);
        if is_beat {
            // A change that changes nothing, but has a number.
            let visibility = surface.cursor_visibility();
            surface.add_change(Change::CursorVisibility(visibility))?;
            self.ticks.hurry(now);
        }
        let mut served = Served(surface);
        match self.ticks.turn(served.shown(), now) {
            Turn::Wait => return Ok(()),
            Turn::Same if !is_asked => return Ok(()),
            Turn::Same => {}
            Turn::Tick if is_beat => {}
            Turn::Tick => record(&mut self.parts.recorder, &mut self.unrecorded, served.0),
        }
        self.parts.hub.tick(&mut served)
    }

    /// Goes on to the next stage, and kills a program whose time is over.
    fn proceed(&mut self) -> Result<(), Error> {
        let now = Instant::now();
        if self.killed.is_some_and(|killed| now >= killed) {
            self.parts.program.signal(Signal::SIGKILL);
            self.killed = None;
        }
        let is_both = self.is_closed && self.has_ended;
        match self.stage {
            Stage::Runs if is_both => self.end(now),
            Stage::Closes { until } if is_both || now >= until => self.end(now),
            Stage::Runs if self.is_closed || self.has_ended => {
                let until = now + BRIEFLY;
                self.stage = Stage::Closes { until };
                Ok(())
            }
            _ => Ok(()),
        }
    }

    /// Ends the screen: viewers get the last one, and the window is put back.
    fn end(&mut self, now: Instant) -> Result<(), Error> {
        self.ticks.hurry(now);
        self.tick(true)?;
        let Parts {
            hub,
            window,
            terminal,
            ..
        } = &mut self.parts;
        hub.end(End {
            status: self.status,
        });
        window.put_back(terminal.is_alternate_screen());
        self.stage = Stage::Ends { since: now };
        Ok(())
    }
}

/// Records what is new. A recording that fails ends, and the program goes on.
fn record(
    recorder: &mut Option<Recorder<File>>,
    failed: &mut Option<io::Error>,
    surface: &mut tikeburo::Surface,
) {
    let recorded = recorder.as_mut().map(|recorder| recorder.record(surface));
    if let Some(Err(error)) = recorded {
        *failed = Some(error);
        *recorder = None;
    }
}
