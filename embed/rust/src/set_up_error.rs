use crate::report::Report;
use crate::undone::Undone;
use alloc::vec::Vec;
use core::fmt;

/// Why [`Device::set_up`](crate::Device::set_up) failed.
#[derive(Clone, Debug, PartialEq, Eq)]
#[non_exhaustive]
pub enum SetUpError {
    /// These lines cannot be carried out, and so none was: the device is as it was.
    Undone(Vec<Undone>),
    /// An allocation failed. The report counts what was done before that, which stays. The same
    /// call does the rest.
    Memory(Report),
    /// The time is out of its range, and nothing was done.
    OutOfRange,
}

impl fmt::Display for SetUpError {
    fn fmt(&self, f: &mut fmt::Formatter<'_>) -> fmt::Result {
        match self {
            SetUpError::Undone(undone) => match undone.as_slice() {
                [] => f.write_str("the file was not done"),
                [line] => line.fmt(f),
                [line, _] => write!(f, "{line}; another line is not done either"),
                [line, others @ ..] => {
                    write!(f, "{line}; {} more lines are not done", others.len())
                }
            },
            SetUpError::Memory(report) => write!(f, "an allocation failed: {report}"),
            SetUpError::OutOfRange => f.write_str("the time is out of its range"),
        }
    }
}

impl core::error::Error for SetUpError {}
