//! Many arrivals by one call, frames with a number, causes, and what errors and names read as.
use qtree::{Cause, Device, Error, Fate, Packet, PacketError, Place, Polled, Sent, Settings};
use std::collections::HashSet;
use std::net::{IpAddr, Ipv4Addr};

fn burst(count: u32) -> Result<Vec<Packet>, PacketError> {
    (0..count)
        .map(|buf| Packet::builder(100).buf(buf).build())
        .collect()
}

#[test]
fn many_packets_arrive_by_one_call() -> Result<(), Error> {
    let mut device = Device::open(Settings::default())?;
    device.command("tc qdisc add dev wan root handle 1: pfifo limit 150", 0)?;
    let mut fates = vec![Fate::Kept];
    device.arrive_many(&burst(200)?, 0, &mut fates)?;
    assert_eq!(fates.len(), 201);
    assert!(fates[..151].iter().all(|it| *it == Fate::Kept));
    assert!(
        fates[151..]
            .iter()
            .all(|it| *it == Fate::Lost(Cause::OverLimit))
    );
    for buf in 0..150 {
        assert!(matches!(device.poll(0)?, Polled::Packet(packet) if packet.buf() == buf));
    }
    assert_eq!(device.losses().count(), 50);
    device.arrive_many(&[], 0, &mut fates)?;
    assert_eq!(fates.len(), 201);
    Ok(())
}

#[test]
fn packets_arrive_up_to_the_first_that_cannot() -> Result<(), Error> {
    let mut device = Device::open(Settings::default())?;
    let mut packets = burst(200)?;
    packets[130] = Packet::read(&[], 0, 130, 0);
    let mut fates = Vec::new();
    let ended = device.arrive_many(&packets, 0, &mut fates);
    assert_eq!((ended, fates.len()), (Err(Error::OutOfRange), 130));
    assert_eq!(device.totals().arrived.packets, 130);
    let late = device.arrive_many(&packets, qtree::MOMENT_MAX + 1, &mut fates);
    assert_eq!((late, fates.len()), (Err(Error::OutOfRange), 130));
    Ok(())
}

#[test]
fn a_frame_carries_a_number() -> Result<(), Error> {
    let mut device = Device::open(Settings::default())?;
    let udp = [
        0x45, 0, 0, 28, 0, 0, 0, 0, 64, 17, 0, 0, 10, 0, 0, 1, 10, 0, 0, 2, 0x10, 0, 0x13, 0x89, 0,
        8, 0, 0,
    ];
    assert_eq!(
        device.arrive_frame_numbered(&udp, 1500, 7, u64::MAX, 9, 0)?,
        Fate::Kept
    );
    assert_eq!(
        device.arrive_frame_numbered(&udp, 0, 7, 1, 9, 0),
        Err(Error::OutOfRange)
    );
    let Polled::Packet(packet) = device.poll(0)? else {
        panic!("nothing is queued");
    };
    assert_eq!(
        (packet.number(), packet.buf(), packet.hash()),
        (u64::MAX, 7, 9)
    );
    assert_eq!((packet.ports(), packet.port()), ((4096, 5001), 0));
    Ok(())
}

#[test]
fn a_packet_that_cannot_arrive_is_not_built() {
    assert_eq!(Packet::builder(0).build(), Err(PacketError::Len));
    for (prio, ecn) in [(16, 0), (15, 4), (255, 255)] {
        assert!(Packet::builder(1).prio(prio).ecn(ecn).build().is_err());
    }
    assert!(Packet::builder(1).prio(15).ecn(3).build().is_ok());
    let whole: Error = PacketError::Prio.into();
    assert_eq!(whole.to_string(), "the priority of the packet is above 15");
}

/// Two packets are equal where all of their fields are.
#[test]
fn packets_that_differ_in_one_field_differ() -> Result<(), PacketError> {
    let (from, to, other) = (v4(10, 0, 0, 1), v4(10, 0, 0, 2), v4(10, 0, 0, 3));
    let packet = || {
        let packet = Packet::builder(100).buf(1).number(2, 3);
        packet.addresses(from, to).proto(6).ports(4, 5).hash(6)
    };
    assert_eq!(packet().build()?, packet().build()?);
    let others = [
        packet().buf(9),
        packet().number(9, 3),
        packet().number(2, 9),
        packet().addresses(other, to),
        packet().addresses(from, other),
        packet().proto(17),
        packet().ports(9, 5),
        packet().ports(4, 9),
        packet().hash(9),
        packet().prio(9),
        packet().ecn(1),
        Packet::builder(101)
            .buf(1)
            .number(2, 3)
            .addresses(from, to)
            .proto(6)
            .ports(4, 5)
            .hash(6),
    ];
    for other in others {
        assert_ne!(packet().build()?, other.build()?);
    }
    Ok(())
}

/// So are two packets that polls gave for sending.
#[test]
fn sent_packets_that_differ_in_one_field_differ() -> Result<(), Error> {
    let sent = |packet: Packet| -> Result<Sent, Error> {
        let mut device = Device::open(Settings::default())?;
        device.arrive(&packet, 0)?;
        match device.poll_buf(0)? {
            Polled::Packet(sent) => Ok(sent),
            _ => panic!("nothing is queued"),
        }
    };
    let packet = || Packet::builder(100).buf(1).number(2, 3).ecn(1);
    let others = [
        packet().buf(9),
        packet().number(9, 3),
        packet().number(2, 9),
        packet().ecn(2),
        Packet::builder(101).buf(1).number(2, 3).ecn(1),
    ];
    assert_eq!(sent(packet().build()?)?, sent(packet().build()?)?);
    for other in others {
        assert_ne!(sent(packet().build()?)?, sent(other.build()?)?);
    }
    Ok(())
}

/// A burst with room for a byte more than a packet, which the rate brings in a nanosecond, leaves no time for a late poll.
#[test]
fn a_departure_may_allow_no_lateness() -> Result<(), Error> {
    let mut device = Device::open(Settings::default())?;
    device.command(
        "tc qdisc add dev wan root handle 1: tbf rate 8gbit burst 1515 limit 100000",
        0,
    )?;
    device.command(
        "tc qdisc add dev wan parent 1:1 handle 2: pfifo limit 10",
        0,
    )?;
    let latest = device
        .latest(Place::Class(1, 1), 100)
        .expect("it is promised");
    assert_eq!((latest.bytes, latest.late), (100, Some(0)));
    assert!(latest.at.is_some());
    Ok(())
}

#[test]
fn both_ports_are_replaced() -> Result<(), PacketError> {
    let packet = Packet::builder(100).ports(1, 2).hash(3).build()?;
    let other = packet.with_ports(4, 5);
    assert_eq!((packet.ports(), other.ports()), ((1, 2), (4, 5)));
    assert_eq!((other.hash(), other.len()), (3, 100));
    Ok(())
}

fn v4(a: u8, b: u8, c: u8, d: u8) -> IpAddr {
    Ipv4Addr::new(a, b, c, d).into()
}

/// Beside an IPv6 address an IPv4 address is an IPv4-mapped one (RFC 4291, section 2.5.5.2).
#[test]
fn addresses_of_two_families_are_of_ipv6() -> Result<(), PacketError> {
    let (four, six) = (v4(192, 0, 2, 1), "2001:db8::1".parse().expect("an address"));
    let mapped: IpAddr = "::ffff:192.0.2.1".parse().expect("an address");
    let packet = Packet::builder(100).addresses(four, six).build()?;
    assert_eq!((packet.src(), packet.dst()), (Some(mapped), Some(six)));
    let packet = Packet::builder(100).addresses(six, four).build()?;
    assert_eq!((packet.src(), packet.dst()), (Some(six), Some(mapped)));
    Ok(())
}

#[test]
fn causes_index_an_array() -> Result<(), Error> {
    let mut device = Device::open(Settings::default())?;
    let mut lost = [0; Cause::MOST + 1];
    device.arrive(&Packet::builder(1515).build()?, 0)?;
    device.command("tc qdisc add dev wan root handle 1: drr", 0)?;
    device.arrive(&Packet::builder(100).build()?, 0)?;
    for loss in device.losses() {
        lost[loss.cause as usize] += 1;
    }
    assert_eq!(lost, [0, 1, 1, 0, 0, 0, 0, 0, 0, 0]);
    Ok(())
}

/// Each line with what its error says.
#[test]
fn errors_read_as_sentences() -> Result<(), Error> {
    let mut device = Device::open(Settings::default())?;
    let mut seen = HashSet::new();
    device.command("tc qdisc add dev wan root handle 1: prio", 0)?;
    for (line, said) in [
        (
            "tc qdisc add dev wan root handle 1: drr",
            "the command is refused: a qdisc, or the class, is there already",
        ),
        (
            "tc qdisc add dev wan parent 9:1 handle 2: drr",
            "the command is refused: no qdisc has the major number of the parent",
        ),
        (
            "tc qdisc ad",
            "the line cannot be read: word 3 has no meaning in its place",
        ),
        ("tc qdisc", "the line cannot be read: word 3 is missing"),
        (
            "tc -s qdisc show",
            "the line is no command, and changes no tree",
        ),
    ] {
        let error = device.command(line, 0).expect_err("it is refused");
        assert_eq!(error.to_string(), said);
        assert!(seen.insert(error.explain(line, 1).expect("a line of tc")));
    }
    assert!(seen.iter().any(|it| it.contains("Device::show")));
    assert_eq!(Error::NoCommand.explain("tc qdisc ad", 1), None);
    Ok(())
}

#[test]
fn handles_are_hexadecimal() -> Result<(), Error> {
    let mut device = Device::open(Settings::default())?;
    device.command("tc qdisc add dev wan root handle ff: drr", 0)?;
    device.command("tc class add dev wan parent ff: classid ff:1f drr", 0)?;
    let nodes = device.nodes();
    assert_eq!(nodes[0].to_string(), "drr ff: root");
    assert_eq!(nodes[1].to_string(), "pfifo 0: parent ff:1f");
    assert_eq!(nodes[0].classes[0].to_string(), "ff:1f");
    assert_eq!(format!("{:?}", Place::Class(0xff, 0x1f)), "Class(ff:1f)");
    let debug = format!("{:?}", nodes[0]);
    assert!(
        debug.starts_with("Node { name: drr ff: root, ") && debug.contains("Class { name: ff:1f, "),
        "{debug}"
    );
    Ok(())
}

/// Two customers send the same packets, of two flows, which keep their hashes.
#[test]
fn the_program_names_the_class() -> Result<(), Error> {
    let mut device = Device::open(Settings::default())?;
    device.command("tc qdisc add dev wan root handle 1: drr", 0)?;
    for customer in 1..=2 {
        for line in [
            format!("tc class add dev wan parent 1: classid 1:{customer} drr"),
            format!("tc qdisc add dev wan parent 1:{customer} handle 1{customer}: fq_codel"),
            format!(
                "tc filter add dev wan parent 1: prio 1 flower src_port {customer} classid 1:{customer}"
            ),
        ] {
            device.command(&line, 0)?;
        }
        for flow in [4096, 4097] {
            let packet = Packet::builder(100).ports(flow, 53).proto(17).build()?;
            let named = packet.with_ports(customer, 53);
            assert_eq!(
                (named.hash(), named.ports()),
                (packet.hash(), (customer, 53))
            );
            assert_eq!(device.arrive(&named, 0)?, Fate::Kept);
        }
    }
    for node in &device.nodes()[1..] {
        assert_eq!(node.row.queued.packets, 2);
        assert_eq!(node.listed.map(|it| it.new), Some(2));
    }
    Ok(())
}

/// A tree of 256 nodes and 255 classes, as many as there may be, is listed whole, and so is a
/// script of more than 65,536 bytes.
#[test]
fn long_lists_are_whole() -> Result<(), Error> {
    const ARRIVALS: usize = 5000;
    let mut device = Device::open(Settings {
        recorder: 10_000,
        ..Settings::default()
    })?;
    device.command("tc qdisc add dev wan root handle 1: drr", 0)?;
    for class in 1..256 {
        let line = format!("tc class add dev wan parent 1: classid 1:{class:x} drr quantum 1500");
        device.command(&line, 0)?;
    }
    let nodes = device.nodes();
    assert_eq!((nodes.len(), nodes[0].classes.len()), (256, 255));
    assert_eq!(nodes[255].to_string(), "pfifo 0: parent 1:ff");
    for packet in burst(ARRIVALS as u32)? {
        device.arrive(&packet, 0)?;
    }
    let script = device.recorded_script()?;
    assert!(script.len() > 65536);
    assert_eq!(script.lines().count(), 256 + ARRIVALS);
    assert_eq!(device.losses().count(), ARRIVALS);
    device.keep_last(1_000_000)?;
    device.poll(0)?;
    assert_eq!(device.last_noted(), (1, 1));
    Ok(())
}
