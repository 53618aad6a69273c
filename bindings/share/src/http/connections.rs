//! How many connections there may be, and which of them give way.

use std::collections::BTreeMap;
use std::sync::atomic::{AtomicBool, Ordering::Relaxed};
use std::sync::{Arc, Mutex, MutexGuard, PoisonError};
use std::time::{Duration, Instant};
use tokio::sync::Notify;

/// How long a connection may take to bring the head of its first request.
const FIRST: Duration = Duration::from_secs(10);
/// How long a connection may be idle between two requests of a viewer.
const BETWEEN: Duration = Duration::from_secs(60);

/// The connections that are open. Where there are as many as allowed, a new one takes the place of
/// the one that has been idle for the longest time. A connection is idle while it has no request of
/// a viewer, which has the token.
pub struct Connections {
    most: usize,
    state: Mutex<State>,
}

#[derive(Default)]
struct State {
    count: usize,
    following: usize, // of these, which have asked for the screen
    was_followed: bool,
    next: u64,
    idle: BTreeMap<u64, Idle>, // by when they became so
}

struct Idle {
    until: Instant,
    close: Arc<Notify>,
}

impl State {
    /// Adds a connection to the idle ones, and returns its rank.
    fn rest(&mut self, idle: Idle) -> u64 {
        self.next += 1;
        self.idle.insert(self.next, idle);
        self.next
    }
}

impl Connections {
    pub fn new(most: usize) -> Arc<Connections> {
        let state = Mutex::default();
        Arc::new(Connections { most, state })
    }

    // No call panics with half a change made.
    fn lock(&self) -> MutexGuard<'_, State> {
        self.state.lock().unwrap_or_else(PoisonError::into_inner)
    }

    /// A place for a new connection, or `None` where all are busy.
    pub fn enter(self: &Arc<Self>, now: Instant) -> Option<Arc<Place>> {
        let mut state = self.lock();
        if state.count >= self.most {
            let (_, idle) = state.idle.pop_first()?;
            idle.close.notify_one();
        }
        state.count += 1;
        drop(state);
        let place = Place {
            connections: Arc::clone(self),
            close: Arc::default(),
            rank: Mutex::default(),
            follows: AtomicBool::default(),
        };
        place.rest(now + FIRST);
        Some(Arc::new(place))
    }

    /// How many connections there are that have asked for the screen.
    pub fn following(&self) -> usize {
        self.lock().following
    }

    /// Whether any connection has ever asked for the screen.
    pub fn was_followed(&self) -> bool {
        self.lock().was_followed
    }

    /// Closes the connections that have been idle for too long.
    pub fn sweep(&self, now: Instant) {
        self.lock().idle.retain(|_, idle| {
            let stays = now < idle.until;
            if !stays {
                idle.close.notify_one();
            }
            stays
        });
    }
}

/// The place that a connection has until this is dropped.
pub struct Place {
    connections: Arc<Connections>,
    close: Arc<Notify>,
    rank: Mutex<Option<u64>>, // among the idle ones
    follows: AtomicBool,
}

impl Place {
    fn rank(&self) -> MutexGuard<'_, Option<u64>> {
        self.rank.lock().unwrap_or_else(PoisonError::into_inner)
    }

    fn rest(&self, until: Instant) {
        let close = Arc::clone(&self.close);
        let rank = self.connections.lock().rest(Idle { until, close });
        *self.rank() = Some(rank);
    }

    fn leave_idle(&self) {
        let rank = self.rank().take(); // no two locks at once
        if let Some(rank) = rank {
            self.connections.lock().idle.remove(&rank);
        }
    }

    /// Makes the connection busy, until the result is dropped.
    pub fn work(self: &Arc<Self>) -> Busy {
        self.leave_idle();
        Busy(Arc::clone(self))
    }

    /// Returns once the connection has to close.
    pub async fn closed(&self) {
        self.close.notified().await;
    }
}

impl Drop for Place {
    fn drop(&mut self) {
        self.leave_idle();
        let mut state = self.connections.lock();
        state.count -= 1;
        state.following -= usize::from(*self.follows.get_mut());
    }
}

/// A request of a viewer that is going on.
pub struct Busy(Arc<Place>);

impl Busy {
    /// Counts the connection among those that follow the screen.
    pub fn follow(&self) {
        if !self.0.follows.swap(true, Relaxed) {
            let mut state = self.0.connections.lock();
            state.following += 1;
            state.was_followed = true;
        }
    }
}

impl Drop for Busy {
    fn drop(&mut self) {
        self.0.rest(Instant::now() + BETWEEN);
    }
}

#[cfg(test)]
mod tests {
    use super::*;
    use std::future::Future;
    use std::task::{Context, Poll};

    /// Whether a connection has to close.
    fn is_closed(place: &Place) -> bool {
        let mut context = Context::from_waker(futures_util::task::noop_waker_ref());
        let closed = std::pin::pin!(place.closed());
        closed.poll(&mut context) == Poll::Ready(())
    }

    #[test]
    fn a_new_connection_takes_the_place_of_the_one_longest_idle() {
        let (connections, now) = (Connections::new(3), Instant::now());
        let first = connections.enter(now).unwrap();
        let viewer = connections.enter(now).unwrap();
        let busy = viewer.work();
        let third = connections.enter(now).unwrap();
        let _fourth = connections.enter(now).unwrap();
        assert_eq!(
            [&first, &viewer, &third].map(|it| is_closed(it)),
            [true, false, false]
        );
        drop(busy); // from here on it is idle for the shortest time
        let _fifth = connections.enter(now).unwrap();
        assert_eq!([&viewer, &third].map(|it| is_closed(it)), [false, true]);
    }

    #[test]
    fn where_all_are_busy_there_is_no_place_until_one_is_dropped() {
        let (connections, now) = (Connections::new(2), Instant::now());
        let places = [(); 2].map(|()| connections.enter(now).unwrap());
        let busy: Vec<_> = places.iter().map(Place::work).collect();
        assert!(connections.enter(now).is_none());
        drop((places, busy));
        assert!(connections.enter(now).is_some());
        assert!(connections.lock().idle.is_empty() && connections.lock().count == 0);
    }

    #[test]
    fn who_brings_no_head_in_time_is_closed() {
        let (connections, now) = (Connections::new(2), Instant::now());
        let places = [(); 2].map(|()| connections.enter(now).unwrap());
        let busy = places[0].work();
        connections.sweep(now + FIRST - Duration::from_millis(1));
        assert!(!is_closed(&places[1]));
        connections.sweep(now + FIRST);
        assert_eq!(
            [&places[0], &places[1]].map(|it| is_closed(it)),
            [false, true]
        );
        drop(busy);
        connections.sweep(Instant::now() + BETWEEN);
        assert!(is_closed(&places[0]));
    }
}
