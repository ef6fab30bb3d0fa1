use crate::raw::sys;

/// How long a packet waits at most in a pfifo or bfifo whose packets no other packet overtakes, or in
/// one in a class of a drr, from when it was queued until it has left, whatever comes meanwhile.
///
/// This holds as long as commands take no packet from the qdisc and put none before it, leave a tbf
/// at the root as it is, add no other tbf, and leave the classes of such a drr and their quanta as
/// they are.
#[derive(Clone, Copy, Debug, PartialEq, Eq)]
#[non_exhaustive]
pub struct Worst {
    /// The most bytes that the device sends until the packet has left, including the packet itself.
    pub bytes: u64,
    /// The packet has left as soon as the program has polled until no packet came at a time that is
    /// this many nanoseconds after the packet's arrival, or later. It is rounded up. `None` if no
    /// tbf is at the root.
    pub ns: Option<u64>,
    /// How many nanoseconds after the time of [`Device::ready_at`](crate::Device::ready_at) polls
    /// may come for this. If polls are never later, the packet has left by the sum of `ns` and
    /// `late`. `None` if no tbf is at the root.
    pub late: Option<u64>,
}

impl Worst {
    pub(crate) fn of(delay: sys::Delay) -> Worst {
        // No time is as late as the greatest number.
        let is_timed = delay.ns != u64::MAX;
        Worst {
            bytes: delay.bytes,
            ns: is_timed.then_some(delay.ns),
            late: is_timed.then_some(delay.late),
        }
    }
}
