//! The settings of a device.
use qtree::{Device, Error, Settings};

fn open(mtu: u16, txqueuelen: u32, recorder: u32) -> Result<Device, Error> {
    Device::open(Settings {
        mtu,
        txqueuelen,
        recorder,
    })
}

#[test]
fn settings_are_within_their_ranges() -> Result<(), Error> {
    open(1, 0, 0)?;
    open(65535, u32::MAX, 1_000_000)?;
    assert_eq!(open(0, 1000, 4096).err(), Some(Error::OutOfRange));
    assert_eq!(open(1514, 1000, 1_000_001).err(), Some(Error::OutOfRange));
    Ok(())
}
