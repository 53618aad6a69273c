//! When viewers get what is new: all at the same times, so that they show one of few numbers.

use crate::hub::Shown;
use std::time::{Duration, Instant};

/// Between two ticks at least.
const TICK: Duration = Duration::from_millis(33);
/// How long the first output after a pause is held back, so that what comes right after it is in
/// the same tick.
const GATHER: Duration = Duration::from_millis(3);
/// How often a tick comes where all is still, so that no proxy loses its patience.
const BEAT: Duration = Duration::from_secs(15);

/// What to do.
#[derive(Clone, Copy, PartialEq, Eq, Debug)]
pub enum Turn {
    /// Nothing: what is new comes at the next tick, to those who ask now too.
    Wait,
    /// Nothing is new. Who asks for what was shown before can have it.
    Same,
    /// What is new is shown from now on.
    Tick,
}

pub struct Ticks {
    published: Shown,
    last: Instant,
    due: Option<Instant>, // where there is something new
}

impl Ticks {
    pub fn new(now: Instant) -> Ticks {
        Ticks {
            published: Shown::default(),
            last: now,
            due: None,
        }
    }

    /// When the next tick comes, if by a beat.
    pub fn next(&self) -> Instant {
        self.due.unwrap_or(self.last + BEAT)
    }

    /// Whether a beat is due.
    pub fn is_beat(&self, now: Instant) -> bool {
        self.due.is_none() && now >= self.last + BEAT
    }

    /// Makes what is new due now.
    pub fn hurry(&mut self, now: Instant) {
        self.due = Some(now);
    }

    /// Says what to do, where the screen shows this now.
    pub fn turn(&mut self, shown: Shown, now: Instant) -> Turn {
        if shown == self.published {
            self.due = None;
            return Turn::Same;
        }
        let usual = (self.last + TICK).max(now + GATHER);
        if now < *self.due.get_or_insert(usual) {
            return Turn::Wait;
        }
        *self = Ticks {
            published: shown,
            last: now,
            due: None,
        };
        Turn::Tick
    }
}

#[cfg(test)]
mod tests {
    use super::*;

    fn shown(number: u64) -> Shown {
        let source = 7;
        Shown { source, number }
    }

    const fn ms(milliseconds: u64) -> Duration {
        Duration::from_millis(milliseconds)
    }

    #[test]
    fn ticks_are_apart_and_what_is_new_after_a_pause_comes_soon() {
        let begin = Instant::now();
        let mut ticks = Ticks::new(begin);
        let mut turn = |number, time| ticks.turn(shown(number), begin + ms(time));
        assert_eq!(turn(1, 100), Turn::Wait);
        assert_eq!(turn(2, 102), Turn::Wait);
        assert_eq!(turn(3, 103), Turn::Tick);
        assert_eq!(turn(3, 104), Turn::Same);
        assert_eq!(turn(4, 105), Turn::Wait);
        assert_eq!(turn(5, 135), Turn::Wait);
        assert_eq!(turn(6, 136), Turn::Tick);
        assert_eq!(turn(7, 168), Turn::Wait);
        assert_eq!(turn(8, 170), Turn::Wait);
        assert_eq!(turn(8, 171), Turn::Tick);
    }

    #[test]
    fn a_beat_comes_where_all_is_still() {
        let begin = Instant::now();
        let mut ticks = Ticks::new(begin);
        ticks.turn(shown(1), begin);
        assert_eq!(ticks.turn(shown(1), ticks.next()), Turn::Tick);
        let still = ticks.next();
        assert!(ticks.is_beat(still) && !ticks.is_beat(still - ms(1)));
        assert!(still > begin + ms(15_000) && still < begin + ms(15_100));
    }

    #[test]
    fn the_last_screen_is_in_no_tick_to_come() {
        let begin = Instant::now();
        let mut ticks = Ticks::new(begin);
        assert_eq!(ticks.turn(shown(1), begin), Turn::Wait);
        ticks.hurry(begin);
        assert_eq!(ticks.turn(shown(2), begin), Turn::Tick);
        ticks.hurry(begin);
        assert_eq!(ticks.turn(shown(2), begin), Turn::Same);
    }
}
