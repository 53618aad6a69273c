//! Faults of the bytes that clients are fed.

use crate::ffi::tk_fault;
use std::fmt;

/// What is wrong with the bytes of an answer, and where.
#[derive(Clone, Copy, PartialEq, Eq, Hash, Debug)]
#[non_exhaustive]
pub struct Fault {
    /// What is wrong.
    pub kind: FaultKind,
    /// The byte where the item begins that shows it, from the answer's first on.
    pub at: usize,
    /// The index of the change that the item is in, if it is in one.
    pub change: Option<usize>,
}

/// What is wrong with the bytes of an answer. `docs/VIEWER.md` has the rules.
#[derive(Clone, Copy, PartialEq, Eq, Hash, Debug)]
#[non_exhaustive]
pub enum FaultKind {
    /// They are of another version of the form.
    Version,
    /// An item has a type that isn't allowed here.
    Type,
    /// A text is no UTF-8.
    Utf8,
    /// A number is out of its range, or isn't in its shortest form.
    Range,
    /// The region of a scroll goes past the last row.
    Region,
    /// A delta has another size than what it leads on from.
    Size,
    /// A text is cut or measured in another way than the client does it.
    Measure,
    /// There are more cells, rows or bytes than the client takes, or the changes cost more than
    /// their screen bears.
    Limit,
}

impl From<tk_fault> for Fault {
    fn from(fault: tk_fault) -> Fault {
        let kind = match fault.kind {
            0 => FaultKind::Version,
            1 => FaultKind::Type,
            2 => FaultKind::Utf8,
            4 => FaultKind::Region,
            5 => FaultKind::Size,
            6 => FaultKind::Measure,
            7 => FaultKind::Limit,
            _ => FaultKind::Range,
        };
        Fault {
            kind,
            at: fault.at,
            change: fault.has_change.then_some(fault.change),
        }
    }
}

impl fmt::Display for FaultKind {
    fn fmt(&self, f: &mut fmt::Formatter<'_>) -> fmt::Result {
        f.write_str(match self {
            FaultKind::Version => "version",
            FaultKind::Type => "type",
            FaultKind::Utf8 => "utf-8",
            FaultKind::Range => "range",
            FaultKind::Region => "region",
            FaultKind::Size => "size",
            FaultKind::Measure => "measure",
            FaultKind::Limit => "limit",
        })
    }
}

/// As `measure at 123 in change 4`.
impl fmt::Display for Fault {
    fn fmt(&self, f: &mut fmt::Formatter<'_>) -> fmt::Result {
        write!(f, "{} at {}", self.kind, self.at)?;
        match self.change {
            Some(change) => write!(f, " in change {change}"),
            None => Ok(()),
        }
    }
}
