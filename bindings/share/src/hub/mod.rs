//! Who waits for which number of a screen, and the answers that all who ask the same share. It
//! knows nothing of how a screen is kept, or of how answers travel.

use hyper::body::Bytes;
use std::collections::HashMap;
use std::mem;
use std::sync::{Mutex, MutexGuard, PoisonError};
use tokio::sync::watch;

/// How many answers of one tick are kept for those who ask the same later.
const MOST_KEPT: usize = 256;

/// What a viewer shows: a number of a source, or 0 and 0 where it shows nothing yet.
#[derive(Clone, Copy, PartialEq, Eq, Hash, Debug, Default)]
pub struct Shown {
    pub source: u64,
    pub number: u64,
}

/// A viewer that shows nothing yet, and gets the whole screen.
const NOTHING: Shown = Shown {
    source: 0,
    number: 0,
};

/// Bytes for a viewer, and what it shows once it has them.
#[derive(Clone, PartialEq, Eq, Debug)]
pub struct Answer {
    pub bytes: Bytes,
    pub shown: Shown,
}

/// The screen that viewers follow.
pub trait Screen {
    type Error;

    /// What it shows now.
    fn shown(&self) -> Shown;

    /// What leads on from this number of its source, or `None` where only a repaint does.
    fn delta(&mut self, number: u64) -> Result<Option<Bytes>, Self::Error>;

    /// What brings any viewer to what it shows.
    fn repaint(&mut self) -> Result<Bytes, Self::Error>;
}

/// How the screen ended.
#[derive(Clone, Copy, PartialEq, Eq, Debug)]
pub struct End {
    /// The program's exit status, where it has one.
    pub status: Option<u8>,
}

/// What all viewers share.
pub struct Hub {
    state: Mutex<State>,
    wake: Box<dyn Fn() + Send + Sync>,
}

#[derive(Default)]
struct State {
    shown: Shown,                                         // by the screen, at the last tick
    asked: HashMap<Shown, watch::Sender<Option<Answer>>>, // by name
    made: HashMap<Shown, Answer>,                         // which lead to `shown`
    end: Option<End>,
}

impl State {
    /// The name under which an ask is answered: one for all that only a repaint answers.
    fn name(&self, shown: Shown) -> Shown {
        let is_known = shown.source == self.shown.source && shown.number <= self.shown.number;
        if is_known && shown.number > 0 {
            shown
        } else {
            NOTHING
        }
    }

    /// Whether a viewer that shows this lacks nothing.
    fn is_newest(&self, name: Shown) -> bool {
        name == self.shown && name != NOTHING
    }

    fn keep(&mut self, name: Shown, answer: &Answer) {
        if self.made.len() >= MOST_KEPT {
            self.made.clear();
        }
        self.made.insert(name, answer.clone());
    }
}

impl Hub {
    /// A hub of a screen that has shown nothing yet. It calls `wake` whenever an answer is wanted
    /// that only [`Hub::tick`] can make.
    pub fn new(wake: impl Fn() + Send + Sync + 'static) -> Hub {
        Hub {
            state: Mutex::default(),
            wake: Box::new(wake),
        }
    }

    // A thread that panicked has left the state whole: no call panics with half a change made.
    fn lock(&self) -> MutexGuard<'_, State> {
        self.state.lock().unwrap_or_else(PoisonError::into_inner)
    }

    /// Waits for what a viewer that shows this lacks. Returns `None` at the end. To drop the future
    /// is to withdraw the ask.
    pub async fn next(&self, shown: Shown) -> Option<Answer> {
        let mut coming = {
            let mut state = self.lock();
            let name = state.name(shown);
            if let Some(answer) = state.made.get(&name) {
                return Some(answer.clone());
            }
            let waits = state.is_newest(name);
            if waits && state.end.is_some() {
                return None;
            }
            let asked = state.asked.entry(name);
            let coming = asked.or_insert_with(|| watch::channel(None).0).subscribe();
            drop(state);
            if !waits {
                (self.wake)();
            }
            coming
        };
        coming.changed().await.ok()?; // an error is the end
        let answer = coming.borrow().clone();
        answer
    }

    /// Publishes what the screen shows now, and answers all viewers that lack some of it. Those that
    /// ask the same share one answer, and for asks that were withdrawn none is made.
    ///
    /// # Errors
    ///
    /// Those of the screen. The asks that are unanswered then return `None`.
    pub fn tick<S: Screen>(&self, screen: &mut S) -> Result<(), S::Error> {
        for (name, asked) in self.start_tick(screen.shown()) {
            let answer = self.make(screen, name)?;
            self.lock().keep(name, &answer);
            asked.send_replace(Some(answer));
        }
        Ok(())
    }

    /// Takes the asks that are to be answered now.
    fn start_tick(&self, shown: Shown) -> Vec<(Shown, watch::Sender<Option<Answer>>)> {
        let mut state = self.lock();
        if state.shown != shown {
            state.made.clear();
        }
        state.shown = shown;
        let asked = mem::take(&mut state.asked);
        let (asked, same): (Vec<_>, Vec<_>) = asked
            .into_iter()
            .filter(|(_, asked)| !asked.is_closed())
            .partition(|(name, _)| !state.is_newest(*name));
        if state.end.is_none() {
            state.asked.extend(same);
        }
        asked
    }

    fn make<S: Screen>(&self, screen: &mut S, name: Shown) -> Result<Answer, S::Error> {
        let shown = screen.shown();
        let is_known = name.source == shown.source && name.number > 0;
        if let Some(bytes) = is_known
            .then(|| screen.delta(name.number))
            .transpose()?
            .flatten()
        {
            return Ok(Answer { bytes, shown });
        }
        if let Some(answer) = self.lock().made.get(&NOTHING) {
            return Ok(answer.clone());
        }
        let bytes = screen.repaint()?;
        let answer = Answer { bytes, shown };
        self.lock().keep(NOTHING, &answer);
        Ok(answer)
    }

    /// Ends the screen. A viewer that shows the last tick is at the end, and others are brought there
    /// first.
    pub fn end(&self, end: End) {
        let mut state = self.lock();
        state.end = Some(end);
        let shown = state.shown;
        state.asked.remove(&shown);
    }

    /// How the screen ended, once it has.
    pub fn ended(&self) -> Option<End> {
        self.lock().end
    }
}

#[cfg(test)]
impl Hub {
    /// Whether somebody waits who shows this.
    pub fn is_asked(&self, shown: Shown) -> bool {
        let state = self.lock();
        let asked = state.asked.get(&shown);
        asked.is_some_and(|asked| !asked.is_closed())
    }
}

#[cfg(test)]
pub mod tests;
