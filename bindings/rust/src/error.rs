//! Why calls fail.

use crate::fault::Fault;
use crate::ffi;
use std::fmt;

/// Why a call failed. Unless the call says more, it has changed nothing.
#[derive(Clone, Copy, PartialEq, Eq, Hash, Debug)]
#[non_exhaustive]
pub enum Error {
    /// Memory was refused to the library.
    Memory,
    /// Bytes are no encoding of what is wanted.
    Unreadable,
    /// Bytes end before the ask, or the answer's head, does: more would have to come.
    Truncated,
    /// Bytes that a client was fed make no answer that it can take.
    Fault(Fault),
    /// The region of a scroll goes past the last row.
    ScrollRegion,
    /// The numbers of changes are used up.
    Numbers,
    /// A row, a column, a size, a limit or the number of a variant is outside of its range.
    Range,
    /// What a call takes was measured by different [`Widths`](crate::Widths).
    OtherWidths,
    /// The library returned a number that this crate has no name for.
    Unknown(i32),
}

impl Error {
    /// What the status of a call says.
    pub(crate) fn check(status: i32) -> Result<(), Error> {
        match status {
            ffi::DONE => Ok(()),
            ffi::MEMORY => Err(Error::Memory),
            ffi::UNREADABLE => Err(Error::Unreadable),
            ffi::TRUNCATED => Err(Error::Truncated),
            ffi::REGION => Err(Error::ScrollRegion),
            ffi::NUMBERS => Err(Error::Numbers),
            ffi::RANGE => Err(Error::Range),
            ffi::OTHER_WIDTHS => Err(Error::OtherWidths),
            other => Err(Error::Unknown(other)),
        }
    }
}

impl fmt::Display for Error {
    fn fmt(&self, f: &mut fmt::Formatter<'_>) -> fmt::Result {
        match self {
            Error::Memory => f.write_str("memory was refused"),
            Error::Unreadable => f.write_str("the bytes can't be read"),
            Error::Truncated => f.write_str("the bytes end too early"),
            Error::Fault(fault) => write!(f, "the answer can't be taken: {fault}"),
            Error::ScrollRegion => f.write_str("the region of a scroll goes past the last row"),
            Error::Numbers => f.write_str("the numbers of changes are used up"),
            Error::Range => {
                f.write_str("a row, a column, a size or a limit is outside of its range")
            }
            Error::OtherWidths => f.write_str("what was given was measured by different widths"),
            Error::Unknown(status) => write!(f, "unknown status {status}"),
        }
    }
}

impl std::error::Error for Error {}
