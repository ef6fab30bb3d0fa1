//! Steps that happen to a device at time 0, and what its polls have to give.
use crate::device_bench::Ask;
use crate::lines::packet;
use qtree::{Device, Error, Fate, Polled, Settings};

/// What happens in a play.
#[derive(Clone, Copy, Debug)]
pub enum Step {
    /// A line is done.
    Tc(Ask),
    /// So many packets of this length and priority are queued.
    Packets(u64, u16, u8),
    /// So many polls give these bytes of priority 1 and of priority 2.
    Polls(usize, [u64; 2]),
}

/// A new device for packets of at most 1514 bytes, whose pfifo has 100 packets.
pub fn opened() -> Result<Device, Error> {
    Device::open(Settings {
        mtu: 1514,
        txqueuelen: 100,
        recorder: 0,
    })
}

/// These steps happen.
pub fn go_on(device: &mut Device, steps: &[Step]) -> Result<(), Error> {
    for (nth, step) in steps.iter().enumerate() {
        match *step {
            Step::Tc(ask) => device.command(&ask.line(), 0)?,
            Step::Packets(count, len, prio) => {
                for number in 0..count {
                    let fate = device.arrive(&packet(number, len, prio), 0)?;
                    assert_eq!(fate, Fate::Kept, "step {nth}: {step:?}");
                }
            }
            Step::Polls(count, expected) => {
                assert_eq!(polls(device, count)?, expected, "step {nth}: {step:?}");
            }
        }
    }
    Ok(())
}

/// The bytes of priority 1 and of priority 2 that so many polls give. No packet has another
/// priority.
fn polls(device: &mut Device, count: usize) -> Result<[u64; 2], Error> {
    let mut bytes = [0; 2];
    for _ in 0..count {
        if let Polled::Packet(packet) = device.poll(0)? {
            bytes[usize::from(packet.prio()) - 1] += u64::from(packet.len());
        }
    }
    Ok(bytes)
}

/// The bytes of the packet that a poll gave; 0 where it gave none.
pub fn given(polled: Polled) -> u64 {
    match polled {
        Polled::Packet(packet) => packet.len().into(),
        Polled::Idle | Polled::Later => 0,
    }
}
