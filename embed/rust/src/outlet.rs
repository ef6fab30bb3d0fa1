use crate::count::Count;
use crate::device::Device;
use crate::raw::RawOutlet;
use crate::ring_state::RingState;
use alloc::sync::Arc;

/// A drain's end of a ring.
#[derive(Debug)]
pub(crate) struct Outlet {
    raw: RawOutlet,
    ring: Arc<RingState>,
}

impl Outlet {
    pub(crate) fn new(raw: RawOutlet, ring: Arc<RingState>) -> Outlet {
        Outlet { raw, ring }
    }

    /// The oldest packet of the ring arrives, if one waits. Returns how many did, 0 or 1.
    pub(crate) fn take_in(&mut self, device: &mut Device, now: u64) -> (u32, usize) {
        self.raw.take_in(&mut device.0, now, 1)
    }

    /// What was taken in so far.
    pub(crate) fn taken(&self) -> Count {
        Count::of(self.raw.share())
    }

    /// What the port placed, once it is closed.
    pub(crate) fn placed(&self) -> Option<Count> {
        self.ring.placed()
    }
}

impl Drop for Outlet {
    fn drop(&mut self) {
        self.ring.close_outlet();
    }
}
