use crate::count::Count;
use core::sync::atomic::{AtomicBool, AtomicU64, Ordering};

/// What each end of a ring lets the other know once it is closed.
#[derive(Debug, Default)]
pub(crate) struct RingState {
    port_closed: AtomicBool,
    outlet_closed: AtomicBool,
    packets: AtomicU64,
    bytes: AtomicU64,
}

impl RingState {
    /// The port is closed, and placed this.
    pub(crate) fn close_port(&self, placed: Count) {
        self.packets.store(placed.packets, Ordering::Relaxed);
        self.bytes.store(placed.bytes, Ordering::Relaxed);
        // A thread that sees it closed also sees the share, and every packet in the ring.
        self.port_closed.store(true, Ordering::Release);
    }

    /// What the port placed, once it is closed.
    pub(crate) fn placed(&self) -> Option<Count> {
        self.port_closed.load(Ordering::Acquire).then(|| Count {
            packets: self.packets.load(Ordering::Relaxed),
            bytes: self.bytes.load(Ordering::Relaxed),
        })
    }

    pub(crate) fn close_outlet(&self) {
        self.outlet_closed.store(true, Ordering::Relaxed);
    }

    /// Whether the drain was dropped, so that no offer will be taken in.
    pub(crate) fn is_outlet_closed(&self) -> bool {
        self.outlet_closed.load(Ordering::Relaxed)
    }
}
