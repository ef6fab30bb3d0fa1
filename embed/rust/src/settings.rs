use crate::raw::sys;

/// What a device is opened with.
#[derive(Clone, Copy, Debug, PartialEq, Eq)]
pub struct Settings {
    /// The length of the longest packet that is taken, 1 to 65535 bytes.
    pub mtu: u16,
    /// How many packets a pfifo holds for which no limit is given.
    pub txqueuelen: u32,
    /// How many events, the first ones, are recorded, 0 to 1,000,000.
    pub recorder: u32,
}

impl Default for Settings {
    /// Settings that suit most programs: an mtu of 1514, which is 1500 bytes plus an Ethernet
    /// header, the txqueuelen of Linux, which is 1000, and no recorder.
    fn default() -> Settings {
        Settings {
            mtu: 1514,
            txqueuelen: 1000,
            recorder: 0,
        }
    }
}

impl Settings {
    pub(crate) fn to_c(self) -> sys::Settings {
        sys::Settings {
            txqueuelen: self.txqueuelen,
            recorder: self.recorder,
            mtu: self.mtu,
        }
    }
}
