//! The hub over a made-up screen, whose answers are texts.

use super::*;
use std::future::Future;
use std::sync::atomic::{AtomicUsize, Ordering};
use std::sync::Arc;
use std::time::Duration;
use tokio::time;

/// A screen that knows its last three numbers, and counts what it makes.
pub struct Numbers {
    pub shown: Shown,
    deltas: usize,
    repaints: usize,
}

pub const SOURCE: u64 = 7;

pub fn shown(number: u64) -> Shown {
    let source = SOURCE;
    Shown { source, number }
}

impl Numbers {
    pub fn new() -> Numbers {
        let (deltas, repaints) = (0, 0);
        let shown = shown(10);
        Numbers {
            shown,
            deltas,
            repaints,
        }
    }
}

impl Screen for Numbers {
    type Error = &'static str;

    fn shown(&self) -> Shown {
        self.shown
    }

    fn delta(&mut self, number: u64) -> Result<Option<Bytes>, &'static str> {
        if number == 4 {
            return Err("refused");
        }
        let is_known = number + 3 >= self.shown.number;
        self.deltas += usize::from(is_known);
        Ok(is_known.then(|| format!("{number} to {}", self.shown.number).into()))
    }

    fn repaint(&mut self) -> Result<Bytes, &'static str> {
        self.repaints += 1;
        Ok(format!("all of {}", self.shown.number).into())
    }
}

/// Runs this, with a hub that counts how often it wakes its screen.
fn run<F: Future<Output = ()>>(test: impl FnOnce(Arc<Hub>, Arc<AtomicUsize>) -> F) {
    let woken = Arc::new(AtomicUsize::new(0));
    let counted = Arc::clone(&woken);
    let hub = Arc::new(Hub::new(move || {
        counted.fetch_add(1, Ordering::Relaxed);
    }));
    let runtime = tokio::runtime::Builder::new_current_thread()
        .enable_time()
        .build()
        .unwrap();
    runtime.block_on(async {
        let limit = Duration::from_secs(10);
        time::timeout(limit, test(hub, woken)).await.unwrap();
    });
}

type Asked = tokio::task::JoinHandle<Option<Answer>>;

/// Asks in the background. The ask is known once this returns.
async fn ask(hub: &Arc<Hub>, shown: Shown) -> Asked {
    let hub = Arc::clone(hub);
    let asked = tokio::spawn(async move { hub.next(shown).await });
    tokio::task::yield_now().await;
    asked
}

async fn text(asked: Asked) -> Option<String> {
    let answer = asked.await.unwrap()?;
    Some(String::from_utf8(answer.bytes.to_vec()).unwrap())
}

#[test]
fn who_shows_nothing_gets_the_whole_screen_at_once() {
    run(|hub, woken| async move {
        let mut screen = Numbers::new();
        let first = ask(&hub, NOTHING).await;
        assert_eq!(woken.load(Ordering::Relaxed), 1);
        hub.tick(&mut screen).unwrap();
        assert_eq!(text(first).await.as_deref(), Some("all of 10"));
        // The next one needs no tick.
        assert_eq!(hub.next(NOTHING).await.unwrap().shown, shown(10));
        assert_eq!(screen.repaints, 1);
    });
}

#[test]
fn who_shows_the_newest_waits_for_the_next() {
    run(|hub, woken| async move {
        let mut screen = Numbers::new();
        hub.tick(&mut screen).unwrap();
        let asked = ask(&hub, shown(10)).await;
        hub.tick(&mut screen).unwrap();
        tokio::task::yield_now().await;
        assert!(!asked.is_finished());
        assert_eq!(woken.load(Ordering::Relaxed), 0);
        screen.shown = shown(12);
        hub.tick(&mut screen).unwrap();
        assert_eq!(text(asked).await.as_deref(), Some("10 to 12"));
        assert!(hub.lock().asked.is_empty());
    });
}

#[test]
fn all_who_ask_the_same_share_one_answer() {
    run(|hub, _| async move {
        let mut screen = Numbers::new();
        hub.tick(&mut screen).unwrap();
        let mut all = Vec::new();
        for number in [10, 9, 9, 10, 10, 9] {
            all.push(ask(&hub, shown(number)).await);
        }
        screen.shown = shown(11);
        hub.tick(&mut screen).unwrap();
        let mut places = Vec::new();
        for asked in all {
            places.push(asked.await.unwrap().unwrap().bytes.as_ptr());
        }
        assert_eq!(screen.deltas, 2);
        assert_eq!(places[0], places[3]);
        assert_eq!(places[1], places[5]);
    });
}

#[test]
fn numbers_that_nobody_was_given_cost_one_repaint() {
    run(|hub, _| async move {
        let mut screen = Numbers::new();
        hub.tick(&mut screen).unwrap();
        let mut all = Vec::new();
        for number in 1..1000 {
            let source = 100 + number;
            all.push(ask(&hub, Shown { source, number }).await);
            all.push(ask(&hub, shown(10 + number)).await);
            all.push(ask(&hub, shown(0)).await);
        }
        for number in [1, 2, 3, 5, 6] {
            all.push(ask(&hub, shown(number)).await); // too old for a delta
        }
        assert_eq!(hub.lock().asked.len(), 6);
        hub.tick(&mut screen).unwrap();
        for asked in all {
            assert_eq!(text(asked).await.as_deref(), Some("all of 10"));
        }
        assert_eq!((screen.repaints, screen.deltas), (1, 0));
        assert!(hub.lock().made.len() <= MOST_KEPT);
    });
}

#[test]
fn an_ask_that_is_dropped_costs_nothing() {
    run(|hub, _| async move {
        let mut screen = Numbers::new();
        hub.tick(&mut screen).unwrap();
        let (gone, late) = (ask(&hub, shown(10)).await, ask(&hub, shown(9)).await);
        gone.abort();
        late.abort();
        assert!(gone.await.is_err() && late.await.is_err());
        screen.shown = shown(11);
        hub.tick(&mut screen).unwrap();
        assert_eq!((screen.deltas, screen.repaints), (0, 0));
        assert!(hub.lock().asked.is_empty());
    });
}

#[test]
fn another_source_is_a_repaint_for_all() {
    run(|hub, _| async move {
        let mut screen = Numbers::new();
        hub.tick(&mut screen).unwrap();
        let waits = ask(&hub, shown(10)).await;
        screen.shown = Shown {
            source: 8,
            number: 3,
        };
        hub.tick(&mut screen).unwrap();
        assert_eq!(text(waits).await.as_deref(), Some("all of 3"));
        let next = ask(&hub, shown(10)).await;
        assert_eq!(next.await.unwrap().unwrap().shown, screen.shown);
    });
}

#[test]
fn at_the_end_all_get_the_last_screen_first() {
    run(|hub, _| async move {
        let mut screen = Numbers::new();
        hub.tick(&mut screen).unwrap();
        let (waits, late) = (ask(&hub, shown(10)).await, ask(&hub, shown(8)).await);
        let end = End { status: Some(7) };
        hub.end(end);
        assert_eq!(text(waits).await, None);
        hub.tick(&mut screen).unwrap();
        assert_eq!(text(late).await.as_deref(), Some("8 to 10"));
        let latest = ask(&hub, NOTHING).await;
        hub.tick(&mut screen).unwrap();
        assert_eq!(text(latest).await.as_deref(), Some("all of 10"));
        assert_eq!(hub.next(shown(10)).await, None);
        assert_eq!(hub.ended(), Some(end));
    });
}

#[test]
fn a_screen_that_fails_leaves_nobody_waiting() {
    run(|hub, _| async move {
        let mut screen = Numbers::new();
        hub.tick(&mut screen).unwrap();
        let (fails, other) = (ask(&hub, shown(4)).await, ask(&hub, shown(4)).await);
        assert_eq!(hub.tick(&mut screen), Err("refused"));
        assert_eq!((text(fails).await, text(other).await), (None, None));
    });
}
