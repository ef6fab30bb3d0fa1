//! What a line says is read off the line in which a device records it: that has each value of the
//! command and no other, in one form of many.
use qtree::{Device, Error, Settings};

/// What a qdisc at the root needs.
pub const NOTHING: &[&str] = &[];

/// What a class of 1: needs.
pub const DRR: &[&str] = &["tc qdisc add dev wan root handle 1: drr"];

/// What a qdisc in one of these classes needs, and a filter into one.
pub const CLASSES: &[&str] = &[
    "tc qdisc add dev wan root handle fffe: drr",
    "tc class add dev wan parent fffe: classid fffe:ffff drr",
    "tc class add dev wan parent fffe: classid fffe:1 drr",
    "tc qdisc add dev wan parent fffe:1 handle 1: drr",
    "tc class add dev wan parent 1: classid 1:1 drr",
];

/// A new device with what it needs does each line, whose front is the same, and records the one
/// beside it, behind another front.
pub fn expect(
    needed: &[&str],
    front: &str,
    recorded_front: &str,
    rows: &[(&str, &str)],
) -> Result<(), Error> {
    for (rest, recorded_rest) in rows {
        let line = format!("{front}{rest}");
        let mut device = Device::open(Settings {
            recorder: 8,
            ..Settings::default()
        })?;
        for needed in needed {
            device.command(needed, 0)?;
        }
        assert_eq!(device.command(&line, 0), Ok(()), "{line}");
        let script = device.recorded_script()?;
        let recorded = format!("{recorded_front}{recorded_rest}");
        assert_eq!(script.lines().last(), Some(recorded.as_str()), "{line}");
    }
    Ok(())
}
