use crate::raw::sys;

/// What a class of a drr is promised while something is queued in it, whatever comes to the other
/// classes. All numbers are rounded against the class.
///
/// With a tbf at the root: in any `t` nanoseconds between two times at which a poll returns no
/// packet, the class sends more than `rate * t / (8 * 10^9) - slack` bytes, if the program polls
/// until no packet comes, and then polls again at most [`Service::late`] nanoseconds after the time
/// of [`Device::ready_at`](crate::Device::ready_at).
///
/// With a drr at the root: the class sends at least the share `part / 10^9` of what the root's
/// classes send, less `slack`.
///
/// Both hold as long as the qdiscs, classes and quanta on the way to the class stay as they are,
/// and no further tbf is added below one at the root.
#[derive(Clone, Copy, Debug, PartialEq, Eq)]
#[non_exhaustive]
pub struct Service {
    /// The rate of the tbf at the root, in bits a second; `None` if a drr is at the root.
    pub link: Option<u64>,
    /// The class's share of that rate, in bits a second, rounded down at each drr on the way; `None`
    /// if a drr is at the root.
    pub rate: Option<u64>,
    /// The class's share of a billion bytes, in bytes, rounded down at each drr on the way.
    pub part: u64,
    /// The most bytes that the class can fall short of its share.
    pub slack: u64,
    /// How many nanoseconds polls may be late while this holds: the longest time for which the burst
    /// of the tbf at the root has room for a packet of the mtu and what the rate brings in that time
    /// and a nanosecond. `None` if a drr is at the root: then polls may come at any time.
    pub late: Option<u64>,
}

impl Service {
    pub(crate) fn of(promise: sys::Promise, late: u64) -> Service {
        // A tbf has a rate of at least a bit a second.
        let is_linked = promise.link > 0;
        Service {
            link: is_linked.then_some(promise.link),
            rate: is_linked.then_some(promise.rate),
            part: promise.part,
            slack: promise.slack,
            late: is_linked.then_some(late),
        }
    }
}
