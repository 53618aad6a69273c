//! Why a write failed.

use std::{fmt, io};

/// Why a [`Renderer`](super::Renderer) failed to show a screen. What the terminal shows is unknown
/// then, unless the call says more: the next write begins by a reset and shows all.
#[derive(Debug)]
#[non_exhaustive]
pub enum Error {
    /// Bytes couldn't be written: some of them may have been.
    Write(io::Error),
    /// A screen couldn't be read, or changes couldn't be made: nothing was written.
    Screen(crate::Error),
}

impl fmt::Display for Error {
    fn fmt(&self, f: &mut fmt::Formatter<'_>) -> fmt::Result {
        match self {
            Error::Write(_) => f.write_str("the terminal can't be written to"),
            Error::Screen(_) => f.write_str("the screen can't be read"),
        }
    }
}

impl std::error::Error for Error {
    fn source(&self) -> Option<&(dyn std::error::Error + 'static)> {
        match self {
            Error::Write(error) => Some(error),
            Error::Screen(error) => Some(error),
        }
    }
}

impl From<io::Error> for Error {
    fn from(error: io::Error) -> Error {
        Error::Write(error)
    }
}

impl From<crate::Error> for Error {
    fn from(error: crate::Error) -> Error {
        Error::Screen(error)
    }
}
