use crate::count::Count;
use crate::raw::sys;

/// The counters of a place. In packets and in bytes, what arrived was sent, refused or dropped, or
/// is queued.
#[derive(Clone, Copy, Debug, Default, PartialEq, Eq)]
#[non_exhaustive]
pub struct Row {
    /// What arrived.
    pub arrived: Count,
    /// What polls returned.
    pub sent: Count,
    /// What was lost as `TooLong`, `NoClass` or `OverLimit`.
    pub refused: Count,
    /// What was lost for another cause, even if that was on arrival.
    pub dropped: Count,
    /// What is queued.
    pub queued: Count,
    /// What CoDel marked. It is part of no sum.
    pub marked: Count,
}

impl Row {
    pub(crate) fn of(row: sys::Row) -> Row {
        Row {
            arrived: Count::of(row.arrived),
            sent: Count::of(row.sent),
            refused: Count::of(row.refused),
            dropped: Count::of(row.dropped),
            queued: Count::of(row.queued),
            marked: Count::of(row.marked),
        }
    }
}
