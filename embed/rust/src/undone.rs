use crate::error::Error;
use crate::fault::Fault;
use crate::raw::sys;
use core::fmt;

/// A line of a file that cannot be carried out.
#[derive(Clone, Copy, Debug, PartialEq, Eq)]
#[non_exhaustive]
pub struct Undone {
    /// Its number, counted from 1.
    pub line: u64,
    /// Why: `Faulty`, `NoCommand`, or `Refused` by a new device that has carried out the lines
    /// before it. [`Error::explain`] writes a sentence on it.
    pub why: Error,
}

impl Undone {
    pub(crate) fn of(undone: &sys::Undone) -> Undone {
        let why = match undone.code {
            sys::QTREE_FAULTY => Error::Faulty {
                fault: Fault::of(undone.fault.number),
                word: undone.fault.word,
            },
            code => Error::of(code),
        };
        Undone {
            line: undone.line,
            why,
        }
    }
}

impl fmt::Display for Undone {
    fn fmt(&self, f: &mut fmt::Formatter<'_>) -> fmt::Result {
        write!(f, "line {}: {}", self.line, self.why)
    }
}
