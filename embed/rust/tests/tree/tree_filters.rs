//! Filters: each key that they compare, and prefixes of every kind of length.
use crate::bench;
use crate::lines::{self, New};
use qtree::{Device, Error, Fate, Packet, Place};
use std::net::{Ipv4Addr, Ipv6Addr};

// What a filter compares.
#[derive(Clone, Copy, Debug)]
enum Key {
    Any,
    Ipv4,
    Ipv6,
    // The number of the protocol above IP.
    Proto(u8),
    // An address, and how many of its bits are compared.
    Source4(u32, u8),
    Source6(u128, u8),
    Target4(u32, u8),
    Target6(u128, u8),
    // A port.
    SourcePort(u16),
    TargetPort(u16),
}

impl Key {
    // The protocol of the packets that the filter tests, and its key, as a line has them.
    fn words(self) -> (&'static str, String) {
        match self {
            Key::Any => ("all", String::new()),
            Key::Ipv4 => ("ip", String::new()),
            Key::Ipv6 => ("ipv6", String::new()),
            Key::Proto(proto) => ("all", format!("ip_proto {proto}")),
            Key::Source4(from, len) => ("all", format!("src_ip {}/{len}", Ipv4Addr::from(from))),
            Key::Source6(from, len) => ("all", format!("src_ip {}/{len}", Ipv6Addr::from(from))),
            Key::Target4(to, len) => ("all", format!("dst_ip {}/{len}", Ipv4Addr::from(to))),
            Key::Target6(to, len) => ("all", format!("dst_ip {}/{len}", Ipv6Addr::from(to))),
            Key::SourcePort(port) => ("all", format!("src_port {port}")),
            Key::TargetPort(port) => ("all", format!("dst_port {port}")),
        }
    }

    // The line of a filter of this priority and key into a class of 1:.
    fn line(self, prio: u16, minor: u16) -> String {
        let (protocol, key) = self.words();
        format!(
            "tc filter add dev wan parent 1: protocol {protocol} prio {prio} flower {key} classid 1:{minor:x}"
        )
    }
}

use Key::{Source4, Source6, Target4, Target6};

// A packet of this family, protocol, source and destination, and ports. One that is not IP has no
// addresses.
type Flow = (u8, u8, u128, u128, u16, u16);

fn packet((family, proto, src, dst, sport, dport): Flow) -> Result<Packet, Error> {
    let v4 = |bits| Ipv4Addr::from(u32::try_from(bits).expect("an address of 32 bits"));
    let built = match family {
        4 => Packet::builder(100).addresses(v4(src).into(), v4(dst).into()),
        6 => Packet::builder(100).addresses(Ipv6Addr::from(src).into(), Ipv6Addr::from(dst).into()),
        _ => Packet::builder(100),
    };
    let built = built.proto(proto).ports(sport, dport).number(0, 1).hash(0);
    Ok(built.build()?)
}

// A prio of two bands.
fn two_bands() -> Result<Device, Error> {
    let mut device = bench::device(100)?;
    device.command(&lines::graft(Place::Root, 1, New::Prio(2)), 0)?;
    Ok(device)
}

// The band into which a packet goes, the only one of the device, which has the first one by its
// priority.
fn band(device: &mut Device, flow: Flow) -> Result<u16, Error> {
    assert_eq!(device.arrive(&packet(flow)?, 0)?, Fate::Kept, "{flow:?}");
    let counts = [1, 2].map(|minor| device.stats(Place::Class(1, minor)).map(bench::packets));
    let (one, none) = (Some([1, 0, 0, 0, 1]), Some([0; 5]));
    match counts {
        counts if counts == [one, none] => Ok(1),
        counts if counts == [none, one] => Ok(2),
        counts => panic!("{flow:?}: {counts:?}"),
    }
}

// A filter of each key leads into the second band.
fn go(rows: &[(Key, Flow, u16)]) -> Result<(), Error> {
    for (row, (key, flow, minor)) in rows.iter().enumerate() {
        let mut device = two_bands()?;
        device.command(&key.line(1, 2), 0)?;
        assert_eq!(
            band(&mut device, *flow)?,
            *minor,
            "row {row}: {key:?} {flow:?}"
        );
    }
    Ok(())
}

#[test]
fn a_key_takes_the_packets_that_agree() -> Result<(), Error> {
    go(&[
        (Key::Any, (0, 0, 0, 0, 0, 0), 2),
        (Key::Ipv4, (4, 6, 1, 2, 3, 4), 2),
        (Key::Ipv4, (6, 6, 1, 2, 3, 4), 1),
        (Key::Ipv4, (0, 6, 1, 2, 3, 4), 1),
        (Key::Ipv6, (6, 6, 1, 2, 3, 4), 2),
        (Key::Ipv6, (4, 6, 1, 2, 3, 4), 1),
        (Key::Proto(6), (4, 6, 1, 2, 3, 4), 2),
        (Key::Proto(6), (6, 6, 1, 2, 3, 4), 2),
        (Key::Proto(6), (4, 17, 1, 2, 3, 4), 1),
        (Key::SourcePort(53), (4, 17, 1, 2, 53, 4), 2),
        (Key::SourcePort(53), (4, 17, 1, 2, 3, 53), 1),
        (Key::TargetPort(53), (4, 17, 1, 2, 3, 53), 2),
        (Key::TargetPort(53), (4, 17, 1, 2, 53, 4), 1),
    ])
}

#[test]
fn a_prefix_of_version_4_compares_so_many_bits() -> Result<(), Error> {
    go(&[
        (Source4(7, 0), (4, 6, 0xffff_ffff, 0, 0, 0), 2),
        (Source4(7, 0), (6, 6, 7, 0, 0, 0), 1),
        (Source4(0x8000_0000, 1), (4, 6, 0x8000_0001, 0, 0, 0), 2),
        (Source4(0x8000_0000, 1), (4, 6, 0x7fff_ffff, 0, 0, 0), 1),
        (Source4(0x0a00_0001, 32), (4, 6, 0x0a00_0001, 0, 0, 0), 2),
        (Source4(0x0a00_0001, 32), (4, 6, 0x0a00_0000, 0, 0, 0), 1),
        (Source4(0x0a00_0001, 32), (4, 6, 0, 0x0a00_0001, 0, 0), 1),
        (Target4(7, 0), (4, 6, 0, 0xffff_ffff, 0, 0), 2),
        (Target4(0x8000_0000, 1), (4, 6, 0, 0x7fff_ffff, 0, 0), 1),
        (Target4(0x0a00_0001, 31), (4, 6, 0, 0x0a00_0000, 0, 0), 2),
        (Target4(0x0a00_0001, 32), (4, 6, 0, 0x0a00_0000, 0, 0), 1),
    ])
}

#[test]
fn a_prefix_of_version_6_compares_so_many_bits() -> Result<(), Error> {
    go(&[
        (Source6(7, 0), (6, 6, u128::MAX, 0, 0, 0), 2),
        (Source6(7, 0), (4, 6, 7, 0, 0, 0), 1),
        (Source6(1 << 127, 1), (6, 6, u128::MAX, 0, 0, 0), 2),
        (Source6(1 << 127, 1), (6, 6, 1 << 126, 0, 0, 0), 1),
        (Source6(8, 128), (6, 6, 8, 0, 0, 0), 2),
        (Source6(8, 128), (6, 6, 9, 0, 0, 0), 1),
        (Source6(8, 127), (6, 6, 9, 0, 0, 0), 2),
        (Target6(1 << 127, 1), (6, 6, 0, 1 << 126, 0, 0), 1),
        (Target6(8, 128), (6, 6, 0, 8, 0, 0), 2),
        (Target6(8, 128), (6, 6, 8, 0, 0, 0), 1),
    ])
}

// A prio of two bands with 60 filters, which are found by a hash: 40 ports and 20 addresses, those
// of odd numbers into the second band, and behind them a filter into the second for each port and
// address.
fn many() -> Result<Device, Error> {
    let mut device = two_bands()?;
    for number in 0..60u16 {
        let key = match number {
            0..40 => Key::TargetPort(number + 1000),
            _ => Key::Target4(number.into(), 32),
        };
        device.command(&key.line(1, 1 + number % 2), 0)?;
        device.command(&key.line(2, 2), 0)?;
    }
    Ok(device)
}

#[test]
fn the_first_of_many_filters_decides() -> Result<(), Error> {
    let rows = [
        ((4, 17, 1, 2, 5, 1000), 1),
        ((4, 17, 1, 2, 5, 1001), 2),
        ((4, 17, 1, 2, 5, 1038), 1),
        ((4, 17, 1, 41, 5, 6), 2),
        ((4, 17, 1, 58, 5, 6), 1),
        // The filter of the port is before that of the address.
        ((4, 17, 1, 41, 5, 1000), 1),
        ((6, 17, 1, 41, 5, 6), 1),
    ];
    for (row, (flow, minor)) in rows.into_iter().enumerate() {
        assert_eq!(band(&mut many()?, flow)?, minor, "row {row}: {flow:?}");
    }
    Ok(())
}

// The filters of the first priority go.
#[test]
fn filters_that_are_removed_decide_no_more() -> Result<(), Error> {
    let mut device = many()?;
    device.command(&lines::del_filters(1, 1), 0)?;
    assert_eq!(band(&mut device, (4, 17, 1, 2, 5, 1000))?, 2);
    Ok(())
}
