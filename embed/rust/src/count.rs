use crate::raw::sys;
use core::ops::AddAssign;

/// A number of packets, and the sum of their lengths.
#[derive(Clone, Copy, Debug, Default, PartialEq, Eq)]
pub struct Count {
    /// How many packets.
    pub packets: u64,
    /// The sum of their lengths, in bytes.
    pub bytes: u64,
}

impl Count {
    pub(crate) fn of(count: sys::Count) -> Count {
        Count {
            packets: count.packets,
            bytes: count.bytes,
        }
    }
}

impl AddAssign for Count {
    fn add_assign(&mut self, other: Count) {
        self.packets += other.packets;
        self.bytes += other.bytes;
    }
}
