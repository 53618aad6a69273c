//! What answers say at their heads.

use crate::change::SequenceNo;
use crate::error::Error;
use crate::ffi::{self, tk_head};

/// What an answer of [`Surface::respond`](crate::Surface::respond) says before its changes: whose
/// it is, from what state of the screen it leads to what state, and how large the screen is.
///
/// A server that passes answers on needs no more: an answer takes on each client that shows
/// `source` at `base`, and a repaint any client.
///
/// ```
/// use tikeburo::{AnswerHead, Client, Error, Surface};
///
/// let mut surface = Surface::new(80, 24)?;
/// surface.add_change("one")?;
/// let mut client = Client::new()?;
/// let answer = surface.respond(&client.ask()?)?;
/// let first = AnswerHead::read(&answer)?;
/// assert!(first.is_repaint() && (first.width, first.height) == (80, 24));
///
/// client.feed(&answer)?;
/// surface.add_change(" two")?;
/// let second = AnswerHead::read(&surface.respond(&client.ask()?)?)?;
/// assert_eq!((second.source, second.base), (first.source, first.number));
/// # Ok::<(), Error>(())
/// ```
#[derive(Clone, Copy, PartialEq, Eq, Hash, Debug)]
#[non_exhaustive]
pub struct AnswerHead {
    /// The number of the surface that gave it.
    pub source: u64,
    /// The screen's columns.
    pub width: usize,
    /// The screen's rows.
    pub height: usize,
    /// The number that its changes lead on from, or 0: it is the whole screen.
    pub base: SequenceNo,
    /// The number that they lead to.
    pub number: SequenceNo,
    /// How many changes it has.
    pub changes: usize,
}

impl AnswerHead {
    /// What an answer says at its head, of which these are the first bytes. Its changes need not be
    /// there, and are not read.
    ///
    /// # Errors
    ///
    /// [`Error::Truncated`]: the bytes end before the head does. [`Error::Unreadable`]: they are
    /// wrong at a byte of it.
    pub fn read(bytes: &[u8]) -> Result<AnswerHead, Error> {
        let mut head = tk_head::default();
        // Safety: the bytes are only read, and the head alone is written.
        Error::check(unsafe { ffi::tk_answer_head(bytes.as_ptr(), bytes.len(), &mut head) })?;
        Ok(AnswerHead {
            source: head.source as u64,
            width: head.width,
            height: head.height,
            base: head.base,
            number: head.number,
            changes: head.changes,
        })
    }

    /// Whether it is the whole screen, which puts any client right.
    #[must_use]
    pub fn is_repaint(&self) -> bool {
        self.base == 0
    }
}
