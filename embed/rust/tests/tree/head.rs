//! Heads of packets that Linux 6.18 sent, as a packet socket on the sending device saw them: the
//! bytes from the network header on, those of the fragments cut after 32. Of the ICMP and SCTP
//! packets the kernel made the IP header, and a raw socket gave the rest. The fields beside them
//! are what `tshark` 4.0.17 printed of the same bytes: ip.proto or ipv6.nxt, the addresses, the
//! ports, and the ECN bits of ip.dsfield or ipv6.tclass; the priority is the table's for that byte.
//! Behind a hop-by-hop header tshark reads on and finds UDP; here the next header is the protocol.
use qtree::Packet;
use std::net::{IpAddr, Ipv4Addr, Ipv6Addr};

const LOOPBACK: u128 = 0x7f00_0001;

/// The family, the protocol, the source, the destination and the two ports.
type Fields = (u8, u8, u128, u128, u16, u16);

/// The seed of the hashes. A hash is one of the family, the protocol, the addresses and the ports.
const SEED: u32 = 7;

fn address(family: u8, bits: u128) -> IpAddr {
    match family {
        4 => Ipv4Addr::from(bits as u32).into(),
        _ => Ipv6Addr::from(bits).into(),
    }
}

/// The packet with these fields; that of family 0 has no others.
fn packet_with(fields: Fields, prio: u8, ecn: u8) -> Packet {
    let (family, proto, src, dst, sport, dport) = fields;
    let mut packet = Packet::builder(1).seed(SEED).prio(prio).ecn(ecn);
    if family != 0 {
        packet = packet.addresses(address(family, src), address(family, dst));
    }
    let packet = packet.proto(proto).ports(sport, dport).build();
    packet.expect("a packet within its ranges")
}

fn read(bytes: &[u8]) -> Packet {
    Packet::read(bytes, 1, 0, SEED)
}

/// What it was, its bytes, and what is read of them.
type Captured = (&'static str, &'static [u8], Fields, u8, u8);

const CAPTURED: &[Captured] = &[
    (
        "TCP SYN",
        b"\x45\x00\x00\x3c\x64\x7f\x40\x00\x40\x06\xd8\x3a\x7f\x00\x00\x01\
          \x7f\x00\x00\x01\xc4\x23\x20\xfb\xf3\x64\x95\x0a\x00\x00\x00\x00\
          \xa0\x02\xff\xd7\xfe\x30\x00\x00\x02\x04\xff\xd7\x04\x02\x08\x0a\
          \xa8\xc8\xed\x10\x00\x00\x00\x00\x01\x03\x03\x0a",
        (4, 6, LOOPBACK, LOOPBACK, 50211, 8443),
        0,
        0,
    ),
    (
        "UDP with ECT(0), ip.dsfield 0xba",
        b"\x45\xba\x00\x21\xa2\xc1\x40\x00\x40\x11\x99\x4d\x7f\x00\x00\x01\
          \x7f\x00\x00\x02\x13\xc4\x13\xc6\x00\x0d\xfe\x21\x68\x65\x6c\x6c\
          \x6f",
        (4, 17, LOOPBACK, LOOPBACK + 1, 5060, 5062),
        4,
        2,
    ),
    (
        "UDP with a record-route option, ip.hdr_len 32",
        b"\x48\x00\x00\x2c\xe4\x2a\x40\x00\x40\x11\x45\x0a\x7f\x00\x00\x01\
          \x7f\x00\x00\x01\x07\x0b\x08\x7f\x00\x00\x01\x00\x00\x00\x00\x00\
          \x9c\x75\x00\x35\x00\x0c\xfe\x1f\x6f\x70\x74\x73",
        (4, 17, LOOPBACK, LOOPBACK, 40053, 53),
        0,
        0,
    ),
    (
        "ICMP echo request",
        b"\x45\x00\x00\x1c\x2f\x92\x40\x00\x40\x01\x0d\x4d\x7f\x00\x00\x01\
          \x7f\x00\x00\x01\x08\x00\xf7\xfd\x00\x02\x00\x00",
        (4, 1, LOOPBACK, LOOPBACK, 0, 0),
        0,
        0,
    ),
    (
        "SCTP INIT with ECT(1), ip.dsfield 0x01",
        b"\x45\x01\x00\x34\x3b\xec\x40\x00\x40\x84\x00\x57\x7f\x00\x00\x01\
          \x7f\x00\x00\x01\x96\x0c\x0b\x59\x00\x00\x00\x00\x7a\x3e\x1b\x2e\
          \x01\x00\x00\x14\x5c\x7a\x1d\x20\x00\x00\xff\xff\x00\x0a\x00\x0a\
          \x2b\x91\xc0\xaa",
        (4, 132, LOOPBACK, LOOPBACK, 38412, 2905),
        0,
        1,
    ),
    (
        "UDP, first fragment",
        b"\x45\x00\x05\xdc\x17\x01\x20\x00\x40\x11\x40\x0e\x7f\x00\x00\x01\
          \x7f\x00\x00\x01\x08\x01\x08\x02\x07\xd8\xe2\x38\x00\x00\x00\x00",
        (4, 17, LOOPBACK, LOOPBACK, 2049, 2050),
        0,
        0,
    ),
    (
        "UDP, a later fragment, ip.frag_offset 185",
        b"\x45\x00\x02\x24\x17\x01\x00\xb9\x40\x11\x63\x0d\x7f\x00\x00\x01\
          \x7f\x00\x00\x01\x00\x00\x00\x00\x00\x00\x00\x00\x00\x00\x00\x00",
        (4, 17, LOOPBACK, LOOPBACK, 0, 0),
        0,
        0,
    ),
    (
        "UDP over IPv6 with ECT(1), ipv6.tclass 0x29",
        b"\x62\x99\x35\x54\x00\x0a\x11\x40\x00\x00\x00\x00\x00\x00\x00\x00\
          \x00\x00\x00\x00\x00\x00\x00\x01\x00\x00\x00\x00\x00\x00\x00\x00\
          \x00\x00\x00\x00\x00\x00\x00\x01\x02\x22\x02\x23\x00\x0a\x00\x1d\
          \x76\x36",
        (6, 17, 1, 1, 546, 547),
        2,
        1,
    ),
    (
        "IPv6 with a hop-by-hop header, ipv6.nxt 0",
        b"\x60\x09\xa7\xcd\x00\x13\x00\x40\x00\x00\x00\x00\x00\x00\x00\x00\
          \x00\x00\x00\x00\x00\x00\x00\x01\x00\x00\x00\x00\x00\x00\x00\x00\
          \x00\x00\x00\x00\x00\x00\x00\x01\x11\x00\x05\x02\x00\x00\x01\x00\
          \x14\xe9\x14\xea\x00\x0b\x05\xa1\x68\x62\x68",
        (6, 0, 1, 1, 0, 0),
        0,
        0,
    ),
    (
        "ARP request, what an Ethernet frame carries",
        b"\x00\x01\x08\x00\x06\x04\x00\x01\x76\xb1\xb2\x95\x77\x4c\x0a\x09\
          \x00\x01\x00\x00\x00\x00\x00\x00\x0a\x09\x00\x02",
        (0, 0, 0, 0, 0, 0),
        0,
        0,
    ),
];

#[test]
fn reads_captured_heads() {
    for (name, packet, fields, prio, ecn) in CAPTURED {
        assert_eq!(read(packet), packet_with(*fields, *prio, *ecn), "{name}");
    }
}

const TEN_1: u128 = 0x0a00_0001;

const TEN_2: u128 = 0x0a00_0002;

/// A datagram of IPv4 from 10.0.0.1 to 10.0.0.2.
const IPV4: &[u8] = b"\x45\x00\x00\x28\x00\x00\x00\x00\x40\x11\x00\x00\
      \x0a\x00\x00\x01\x0a\x00\x00\x02\x00\x35\x00\x36";

/// The same as a later fragment.
const IPV4_LATER: &[u8] = b"\x45\x00\x00\x28\x00\x00\x00\x01\x40\x11\x00\x00\
      \x0a\x00\x00\x01\x0a\x00\x00\x02\x00\x35\x00\x36";

/// A head whose last byte is missing.
const IPV4_CUT: &[u8] =
    b"\x45\x00\x00\x28\x00\x00\x00\x00\x40\x06\x00\x00\x0a\x00\x00\x01\x0a\x00\x00";

const IPV6: &[u8] = b"\x6b\x90\x00\x00\x00\x04\x11\x40\
      \x00\x00\x00\x00\x00\x00\x00\x00\x00\x00\x00\x00\x00\x00\x00\x01\
      \x00\x00\x00\x00\x00\x00\x00\x00\x00\x00\x00\x00\x00\x00\x00\x02\x00\x35\x00\x36";

/// Neither version 4 nor 6.
const VERSION_5: &[u8] = b"\x5b\x90\x00\x00\x00\x04\x11\x40\
      \x00\x00\x00\x00\x00\x00\x00\x00\x00\x00\x00\x00\x00\x00\x00\x01\
      \x00\x00\x00\x00\x00\x00\x00\x00\x00\x00\x00\x00\x00\x00\x00\x02\x00\x35\x00\x36";

/// A packet, a count of its first bytes, one that is just above the last such count, and what is
/// read of so many bytes.
type Fronts = (&'static [u8], (usize, usize), Fields, u8, u8);

const FRONTS: &[Fronts] = &[
    (IPV4, (0, 20), NONE, 0, 0),
    (IPV4_CUT, (19, 20), NONE, 0, 0),
    (IPV6, (39, 40), NONE, 0, 0),
    (VERSION_5, (44, 45), NONE, 0, 0),
    (IPV4, (20, 24), (4, 17, TEN_1, TEN_2, 0, 0), 0, 0),
    (IPV4, (24, 25), (4, 17, TEN_1, TEN_2, 53, 54), 0, 0),
    (IPV4_LATER, (24, 25), (4, 17, TEN_1, TEN_2, 0, 0), 0, 0),
    (IPV6, (44, 45), (6, 17, 1, 2, 53, 54), 4, 1),
    (IPV6, (43, 44), (6, 17, 1, 2, 0, 0), 4, 1),
];

/// Those of what is not IP.
const NONE: Fields = (0, 0, 0, 0, 0, 0);

#[test]
fn reads_fronts_of_a_head() {
    for (packet, (from, to), fields, prio, ecn) in FRONTS {
        for n in *from..*to {
            let expected = packet_with(*fields, *prio, *ecn);
            assert_eq!(
                read(&packet[..n]),
                expected,
                "the first {n} bytes of {packet:02x?}"
            );
        }
    }
}
