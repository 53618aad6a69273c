//! News for the thread that has the surface. Output has a queue of its own, which is bounded by its
//! bytes, so that a program waits for that thread alone, however many viewers there are.

use nix::sys::signal::Signal;
use std::mem;
use std::sync::{Condvar, Mutex, MutexGuard, PoisonError};
use std::time::Instant;

/// The bytes of output that may wait.
const MOST: usize = 1 << 20;

/// What came since the last call of [`Inbox::wait`].
#[derive(Default)]
pub struct News {
    pub output: Vec<u8>,
    pub is_closed: bool, // the terminal, by the program: no output comes any more
    pub has_ended: bool, // the program
    pub is_asked: bool,  // for what only the surface can answer
    pub is_resized: bool, // the window
    pub signals: Vec<Signal>,
}

impl News {
    fn is_empty(&self) -> bool {
        let flags = [
            self.is_closed,
            self.has_ended,
            self.is_asked,
            self.is_resized,
        ];
        self.output.is_empty() && self.signals.is_empty() && !flags.contains(&true)
    }
}

#[derive(Default)]
pub struct Inbox {
    news: Mutex<News>,
    changed: Condvar,
    taken: Condvar,
}

impl Inbox {
    // No call panics with half a change made.
    fn lock(&self) -> MutexGuard<'_, News> {
        self.news.lock().unwrap_or_else(PoisonError::into_inner)
    }

    /// Adds something else than output.
    pub fn note(&self, note: impl FnOnce(&mut News)) {
        note(&mut self.lock());
        self.changed.notify_one();
    }

    /// Adds output, once there is room.
    pub fn push(&self, bytes: &[u8]) {
        let is_full = |news: &mut News| !news.output.is_empty() && news.output.len() >= MOST;
        let room = self.taken.wait_while(self.lock(), is_full);
        let mut news = room.unwrap_or_else(PoisonError::into_inner);
        news.output.extend_from_slice(bytes);
        drop(news);
        self.changed.notify_one();
    }

    /// Waits until there is something, or until this time. What there is takes the place of `news`.
    pub fn wait(&self, news: &mut News, until: Option<Instant>) {
        let output = mem::take(&mut news.output);
        *news = News {
            output,
            ..News::default()
        };
        news.output.clear(); // but keeps its memory
        let mut coming = self.lock();
        while coming.is_empty() {
            let left = until.map(|until| until.saturating_duration_since(Instant::now()));
            coming = match left {
                Some(left) if left.is_zero() => break,
                Some(left) => {
                    let waited = self.changed.wait_timeout(coming, left);
                    waited.unwrap_or_else(PoisonError::into_inner).0
                }
                None => {
                    let waited = self.changed.wait(coming);
                    waited.unwrap_or_else(PoisonError::into_inner)
                }
            };
        }
        mem::swap(&mut *coming, news);
        drop(coming);
        self.taken.notify_one();
    }
}

#[cfg(test)]
mod tests {
    use super::*;
    use std::sync::Arc;
    use std::thread;
    use std::time::Duration;

    #[test]
    fn output_waits_where_too_much_is_there_and_nothing_is_lost() {
        let inbox = Arc::new(Inbox::default());
        let writer = Arc::clone(&inbox);
        let (chunk, count) = ([7; 4096], 3 * MOST / 4096);
        let written = thread::spawn(move || (0..count).for_each(|_| writer.push(&chunk)));
        thread::sleep(Duration::from_millis(50));
        assert!(!written.is_finished());
        let (mut news, mut bytes) = (News::default(), 0);
        while bytes < count * chunk.len() {
            inbox.wait(&mut news, None);
            assert!(news.output.len() <= MOST);
            bytes += news.output.len();
        }
        written.join().unwrap();
        assert_eq!(bytes, count * chunk.len());
    }

    #[test]
    fn news_come_once() {
        let (inbox, mut news) = (Inbox::default(), News::default());
        inbox.note(|news| news.is_asked = true);
        inbox.push(b"text");
        inbox.wait(&mut news, None);
        assert!(news.is_asked && !news.is_closed);
        assert_eq!(news.output, b"text");
        inbox.wait(&mut news, Some(Instant::now() + Duration::from_millis(1)));
        assert!(news.is_empty());
    }
}
