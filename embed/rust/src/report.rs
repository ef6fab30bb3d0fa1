use crate::raw::sys;
use core::fmt;

/// What [`Device::set_up`](crate::Device::set_up) did.
#[derive(Clone, Copy, Debug, Default, PartialEq, Eq)]
#[non_exhaustive]
pub struct Report {
    /// How many lines the file has, including blank lines and comments.
    pub lines: u64,
    /// How many qdiscs, classes and filters were added.
    pub added: u64,
    /// How many qdiscs and classes were changed.
    pub changed: u64,
    /// How many qdiscs and classes were deleted, and how many priorities of filters.
    pub deleted: u64,
}

impl Report {
    pub(crate) fn of(report: &sys::Report) -> Report {
        Report {
            lines: report.lines,
            added: report.added,
            changed: report.changed,
            deleted: report.deleted,
        }
    }
}

impl fmt::Display for Report {
    fn fmt(&self, f: &mut fmt::Formatter<'_>) -> fmt::Result {
        let Report {
            added,
            changed,
            deleted,
            ..
        } = self;
        if added + changed + deleted == 0 {
            return f.write_str("everything was there already");
        }
        write!(f, "{added} added, {changed} changed, {deleted} deleted")
    }
}
