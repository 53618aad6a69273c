//! The body of a response to an ask: answers that lead on from one another.

use crate::hub::{Answer, Hub, Shown};
use futures_util::stream::{self, Stream};
use hyper::body::Bytes;
use std::convert::Infallible;
use std::sync::Arc;
use std::time::{Duration, SystemTime, UNIX_EPOCH};

/// How long a response goes on, in milliseconds: all end at the multiples of it. So all viewers go
/// on from one number.
const SEGMENT: u128 = 1000;

/// Where a chain of answers ends.
#[derive(Clone, Copy)]
pub enum Until {
    /// After one answer.
    First,
    /// At the first answer that comes after a multiple of [`SEGMENT`].
    Segment,
    /// At the end of the screen.
    End,
}

enum Step {
    Send(Answer),
    Wait(Shown),
    Over,
}

/// In which segment this moment is. A clock before 1970 makes every answer the last one.
fn segment(now: SystemTime) -> Option<u128> {
    let since: Duration = now.duration_since(UNIX_EPOCH).ok()?;
    Some(since.as_millis() / SEGMENT)
}

/// This answer, and those that lead on from it. Each is made once it is wanted, so a viewer that
/// reads slowly gets fewer, with all that is new. `kept` is dropped with the chain.
pub fn chain(
    hub: Arc<Hub>,
    first: Answer,
    until: Until,
    kept: impl Send + 'static,
) -> impl Stream<Item = Result<Bytes, Infallible>> {
    let began = segment(SystemTime::now());
    let is_over = move || match until {
        Until::First => true,
        Until::Segment => began.is_none() || segment(SystemTime::now()) != began,
        Until::End => false,
    };
    stream::unfold(
        (hub, kept, Step::Send(first)),
        move |(hub, kept, step)| async move {
            let answer = match step {
                Step::Send(answer) => answer,
                Step::Wait(shown) => hub.next(shown).await?,
                Step::Over => return None,
            };
            let step = match is_over() {
                true => Step::Over,
                false => Step::Wait(answer.shown),
            };
            Some((Ok(answer.bytes), (hub, kept, step)))
        },
    )
}
