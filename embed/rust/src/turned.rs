use crate::raw::sys;

/// What [`Device::turn`](crate::Device::turn) did, and when to take the next turn.
#[derive(Clone, Copy, Debug, PartialEq, Eq)]
#[non_exhaustive]
pub struct Turned {
    /// How many packets are to be sent. They are in the first places.
    pub sent: usize,
    /// How many losses were handed out. They are in the first places.
    pub lost: usize,
    /// The time before which no poll gives a packet, as [`Device::ready_at`](crate::Device::ready_at)
    /// returns it; `None` if no poll ever will.
    pub again: Option<u64>,
}

impl Turned {
    pub(crate) fn of(turned: sys::Turned) -> Turned {
        Turned {
            sent: turned.sent,
            lost: turned.lost,
            again: (turned.again != u64::MAX).then_some(turned.again),
        }
    }
}
