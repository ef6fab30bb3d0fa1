use crate::device::Device;
use crate::loss::Loss;

/// The losses of a device that were not handed out yet, the oldest first. The device forgets each
/// loss that the iterator returns.
#[derive(Debug)]
#[must_use = "losses wait until the iterator returns them"]
pub struct Losses<'a> {
    pub(crate) device: &'a mut Device,
}

impl Iterator for Losses<'_> {
    type Item = Loss;

    fn next(&mut self) -> Option<Loss> {
        self.device.reap()
    }
}
