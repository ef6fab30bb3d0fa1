//! The events of the README's script: of three packets a pfifo with a limit of two takes two, and
//! polls send them in order.
use crate::device_bench::{Ask, set_up};
use crate::lines::{New, packet};
use crate::script::opened;
use qtree::{Cause, Error, Fate, Place, Polled};

#[test]
fn the_script_of_the_readme_is_played() -> Result<(), Error> {
    let mut device = opened()?;
    set_up(&mut device, &[Ask::Graft(Place::Root, 1, New::Packets(2))])?;
    let packets = [packet(1, 100, 0), packet(2, 200, 0), packet(3, 300, 0)];
    let fates = [Fate::Kept, Fate::Kept, Fate::Lost(Cause::OverLimit)];
    for (packet, fate) in packets.iter().zip(fates) {
        assert_eq!(device.arrive(packet, 0)?, fate, "{packet:?}");
    }
    assert_eq!(device.poll(0)?, Polled::Packet(packets[0]));
    assert_eq!(device.poll(0)?, Polled::Packet(packets[1]));
    assert_eq!(device.poll(0)?, Polled::Idle);
    Ok(())
}
