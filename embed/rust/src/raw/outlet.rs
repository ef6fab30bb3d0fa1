use super::device::RawDevice;
use super::sys;

/// A place with the device's end of a ring.
#[derive(Debug)]
pub(crate) struct RawOutlet(pub(super) sys::Outlet);

// SAFETY: nothing in an outlet belongs to one thread, and the library lets one thread use it while another uses the port.
unsafe impl Send for RawOutlet {}

impl RawOutlet {
    /// Lets up to `most` packets arrive; also how many did.
    pub(crate) fn take_in(
        &mut self,
        device: &mut RawDevice,
        now: u64,
        most: usize,
    ) -> (u32, usize) {
        let mut taken = 0;
        // SAFETY: device and outlet are open, and are borrowed for the call.
        let code = unsafe { sys::qtree_take_in(&mut device.0, &mut self.0, now, most, &mut taken) };
        (code, taken)
    }

    pub(crate) fn share(&self) -> sys::Count {
        let mut share = sys::Count::default();
        // SAFETY: the outlet is open, and `share` is another place.
        unsafe { sys::qtree_outlet_share(&self.0, &mut share) };
        share
    }
}

impl Drop for RawOutlet {
    fn drop(&mut self) {
        // SAFETY: the outlet is open, and nothing uses it afterwards.
        unsafe { sys::qtree_outlet_close(&mut self.0) }
    }
}
