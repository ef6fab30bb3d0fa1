use super::outlet::RawOutlet;
use super::sys;
use crate::packet::Packet;
use core::ptr;

/// A place with the sender's end of a ring.
#[derive(Debug)]
pub(crate) struct RawPort(sys::Port);

// SAFETY: nothing in a port belongs to one thread, and the library lets one thread use it while another uses the outlet.
unsafe impl Send for RawPort {}

/// Both ends of a ring.
pub(crate) fn open_ring(index: u32, places: usize) -> Result<(RawPort, RawOutlet), u32> {
    let mut port = sys::Port {
        at: ptr::null_mut(),
        state: 0,
    };
    let mut outlet = sys::Outlet {
        at: ptr::null_mut(),
        state: 0,
    };
    // SAFETY: both places are closed.
    match unsafe { sys::qtree_ring_open(&mut port, &mut outlet, index, places) } {
        sys::QTREE_DONE => Ok((RawPort(port), RawOutlet(outlet))),
        code => Err(code),
    }
}

impl RawPort {
    pub(crate) fn offer(&mut self, packet: &sys::Packet) -> u32 {
        // SAFETY: the port is open, and `packet` is another place.
        unsafe { sys::qtree_offer(&mut self.0, packet) }
    }

    /// Also how many packets were placed.
    pub(crate) fn offer_many(&mut self, packets: &[Packet]) -> (u32, usize) {
        let (at, mut placed) = (packets.as_ptr().cast(), 0);
        // SAFETY: the port is open; pointer and length are those of `packets`, as `Packet` is laid out like one of C.
        let code = unsafe { sys::qtree_offer_many(&mut self.0, at, packets.len(), &mut placed) };
        (code, placed)
    }

    pub(crate) fn share(&self) -> sys::Count {
        let mut share = sys::Count::default();
        // SAFETY: the port is open, and `share` is another place.
        unsafe { sys::qtree_port_share(&self.0, &mut share) };
        share
    }
}

impl Drop for RawPort {
    fn drop(&mut self) {
        // SAFETY: the port is open, and nothing uses it afterwards.
        unsafe { sys::qtree_port_close(&mut self.0) }
    }
}
