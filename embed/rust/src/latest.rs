use crate::raw::sys;

/// By when a packet has left that is last in a pfifo or bfifo whose packets no other packet
/// overtakes, or in one in a class of a drr, whatever comes meanwhile.
///
/// While [`Worst`](crate::Worst) comes from the settings alone, this comes from what is queued,
/// from the turn and the deficits of the drr's classes, and from what is left of the burst of a tbf
/// at the root.
///
/// This holds as long as commands take no packet from the qdisc and put none before it, leave a tbf
/// at the root as it is, add no other tbf, and leave the classes of such a drr and their quanta as
/// they are.
#[derive(Clone, Copy, Debug, PartialEq, Eq)]
#[non_exhaustive]
pub struct Latest {
    /// The most bytes that the device sends until the packet has left, including the packet itself.
    pub bytes: u64,
    /// The packet has left as soon as the program has polled until no packet came at this time in
    /// nanoseconds, or later. It is rounded up. `None` if no tbf is at the root.
    pub at: Option<u64>,
    /// How many nanoseconds after the time of [`Device::ready_at`](crate::Device::ready_at) polls
    /// may come for this. If polls are never later, the packet has left by the sum of `at` and
    /// `late`. `None` if no tbf is at the root.
    pub late: Option<u64>,
}

impl Latest {
    pub(crate) fn of(departure: sys::Departure) -> Latest {
        // No time is as late as the greatest number.
        let is_timed = departure.at != u64::MAX;
        Latest {
            bytes: departure.bytes,
            at: is_timed.then_some(departure.at),
            late: is_timed.then_some(departure.late),
        }
    }
}
