//! One queue of packets: a pfifo or a bfifo at the root.
use qtree::{Cause, Count, Device, Error, Fate, Packet, Place, Polled, Qdisc, Settings};

/// A device for packets of any length.
fn opened() -> Result<Device, Error> {
    Device::open(Settings {
        mtu: u16::MAX,
        ..Settings::default()
    })
}

/// The packet with this number and length.
fn packet(number: u64, len: u16) -> Packet {
    let packet = Packet::builder(len).number(0, number).build();
    packet.expect("a packet within its ranges")
}

fn root(device: &Device) -> Qdisc {
    device.nodes()[0].qdisc
}

/// A queue takes another limit while it is empty, and then a packet of so many bytes fits or does
/// not.
#[test]
fn limits_in_packets_and_in_bytes() -> Result<(), Error> {
    let over = Fate::Lost(Cause::OverLimit);
    for (kind, limit, len, fate) in [
        ("pfifo", 1, 65535, Fate::Kept),
        ("pfifo", 0, 1, over),
        ("bfifo", 100, 100, Fate::Kept),
        ("bfifo", 100, 101, over),
    ] {
        let mut device = opened()?;
        device.command(&format!("tc qdisc add dev wan root {kind} limit 7"), 0)?;
        let change = format!("tc qdisc change dev wan root {kind} limit {limit}");
        device.command(&change, 0)?;
        let qdisc = match kind {
            "pfifo" => Qdisc::Pfifo { limit },
            _ => Qdisc::Bfifo { limit },
        };
        assert_eq!(root(&device), qdisc, "{kind} of {limit}");
        let step = format!("{len} bytes in a {kind} of {limit}");
        assert_eq!(device.arrive(&packet(1, len), 0)?, fate, "{step}");
    }
    Ok(())
}

/// The queue has so many packets of 200 bytes, from this one on. Each came at the time of its
/// number.
fn has(device: &Device, packets: u64, number: u64) {
    let bytes = packets * 200;
    let queued = device.nodes()[0].row.queued;
    assert_eq!(queued, Count { packets, bytes }, "from {number} on");
    assert_eq!(device.oldest(Place::Root), Some(number));
}

/// A queue has room for five packets of 200 bytes, and then for none of one byte. Under the lower
/// limit of 1 three of them stay, and a removal loses these in order.
fn leave_in_order(kind: &str, limit: u32) -> Result<(), Error> {
    let mut device = opened()?;
    device.command(
        &format!("tc qdisc add dev wan root {kind} limit {limit}"),
        0,
    )?;
    for number in 1..6 {
        let fate = device.arrive(&packet(number, 200), number)?;
        assert_eq!(fate, Fate::Kept, "{kind}, packet {number}");
    }
    let over = Fate::Lost(Cause::OverLimit);
    assert_eq!(device.arrive(&packet(6, 1), 6)?, over, "{kind}");
    assert_eq!(
        device
            .losses()
            .map(|it| it.packet.number())
            .collect::<Vec<_>>(),
        [6],
        "{kind}"
    );
    has(&device, 5, 1);
    for number in [1, 2] {
        let polled = device.poll(6)?;
        assert_eq!(polled, Polled::Packet(packet(number, 200)), "{kind}");
    }
    device.command(&format!("tc qdisc change dev wan root {kind} limit 1"), 6)?;
    has(&device, 3, 3);
    device.command("tc qdisc del dev wan root", 6)?;
    let lost: Vec<_> = device.losses().map(|it| (it.packet, it.cause)).collect();
    let expected = [3, 4, 5].map(|number| (packet(number, 200), Cause::Purged));
    assert_eq!(lost, expected, "{kind}");
    assert_eq!(device.totals().queued, Count::default(), "{kind}");
    assert_eq!(
        (device.poll(6)?, device.oldest(Place::Root)),
        (Polled::Idle, None),
        "{kind}"
    );
    Ok(())
}

#[test]
fn packets_leave_in_order() -> Result<(), Error> {
    leave_in_order("bfifo", 1000)?;
    leave_in_order("pfifo", 5)
}
