//! Marks written into headers: worked ones, and many random ones beside a plain body that sums each
//! checksum anew.
//!
//! The first is a known datagram with its right checksum, 0xb861; the others differ from it, or
//! from the captured one with a record-route option, in the traffic byte or the identification,
//! with their checksums summed by another program.
use crate::words::Words;
use qtree::{Packet, mark_head};
use std::net::IpAddr;

/// What it is, its bytes, whether it is marked, and the bytes after that.
type Worked = (&'static str, &'static [u8], bool, &'static [u8]);

const WORKED: &[Worked] = &[
    (
        "IPv4, NotEct",
        b"\x45\x00\x00\x73\x00\x00\x40\x00\x40\x11\xb8\x61\xc0\xa8\x00\x01\xc0\xa8\x00\xc7",
        false,
        b"\x45\x00\x00\x73\x00\x00\x40\x00\x40\x11\xb8\x61\xc0\xa8\x00\x01\xc0\xa8\x00\xc7",
    ),
    (
        "IPv4, Ect0",
        b"\x45\x02\x00\x73\x00\x00\x40\x00\x40\x11\xb8\x5f\xc0\xa8\x00\x01\xc0\xa8\x00\xc7",
        true,
        b"\x45\x03\x00\x73\x00\x00\x40\x00\x40\x11\xb8\x5e\xc0\xa8\x00\x01\xc0\xa8\x00\xc7",
    ),
    (
        "IPv4, Ect1",
        b"\x45\x01\x00\x73\x00\x00\x40\x00\x40\x11\xb8\x60\xc0\xa8\x00\x01\xc0\xa8\x00\xc7",
        true,
        b"\x45\x03\x00\x73\x00\x00\x40\x00\x40\x11\xb8\x5e\xc0\xa8\x00\x01\xc0\xa8\x00\xc7",
    ),
    (
        "IPv4, Ce",
        b"\x45\x03\x00\x73\x00\x00\x40\x00\x40\x11\xb8\x5e\xc0\xa8\x00\x01\xc0\xa8\x00\xc7",
        true,
        b"\x45\x03\x00\x73\x00\x00\x40\x00\x40\x11\xb8\x5e\xc0\xa8\x00\x01\xc0\xa8\x00\xc7",
    ),
    (
        "IPv4 with three words of options, and a traffic byte with other bits",
        b"\x48\xb9\x00\x2c\xe4\x2a\x40\x00\x40\x11\x44\x51\x7f\x00\x00\x01\
          \x7f\x00\x00\x01\x07\x0b\x08\x7f\x00\x00\x01\x00\x00\x00\x00\x00\x9c\x75",
        true,
        b"\x48\xbb\x00\x2c\xe4\x2a\x40\x00\x40\x11\x44\x4f\x7f\x00\x00\x01\
          \x7f\x00\x00\x01\x07\x0b\x08\x7f\x00\x00\x01\x00\x00\x00\x00\x00\x9c\x75",
    ),
    (
        "a checksum that becomes 0",
        b"\x45\x02\x00\x73\xb8\x5e\x40\x00\x40\x11\x00\x01\xc0\xa8\x00\x01\xc0\xa8\x00\xc7",
        true,
        b"\x45\x03\x00\x73\xb8\x5e\x40\x00\x40\x11\x00\x00\xc0\xa8\x00\x01\xc0\xa8\x00\xc7",
    ),
    (
        "a checksum of 0",
        b"\x45\x02\x00\x73\xb8\x5f\x40\x00\x40\x11\x00\x00\xc0\xa8\x00\x01\xc0\xa8\x00\xc7",
        true,
        b"\x45\x03\x00\x73\xb8\x5f\x40\x00\x40\x11\xff\xfe\xc0\xa8\x00\x01\xc0\xa8\x00\xc7",
    ),
    (
        "the same as 0xffff, the other zero",
        b"\x45\x02\x00\x73\xb8\x5f\x40\x00\x40\x11\xff\xff\xc0\xa8\x00\x01\xc0\xa8\x00\xc7",
        true,
        b"\x45\x03\x00\x73\xb8\x5f\x40\x00\x40\x11\xff\xfe\xc0\xa8\x00\x01\xc0\xa8\x00\xc7",
    ),
    (
        "a wrong checksum, which stays as wrong",
        b"\x45\x02\x00\x73\x00\x00\x40\x00\x40\x11\xb8\x6f\xc0\xa8\x00\x01\xc0\xa8\x00\xc7",
        true,
        b"\x45\x03\x00\x73\x00\x00\x40\x00\x40\x11\xb8\x6e\xc0\xa8\x00\x01\xc0\xa8\x00\xc7",
    ),
    (
        "IPv4 without its last byte",
        b"\x45\x02\x00\x73\x00\x00\x40\x00\x40\x11\xb8\x5f\xc0\xa8\x00\x01\xc0\xa8\x00",
        false,
        b"\x45\x02\x00\x73\x00\x00\x40\x00\x40\x11\xb8\x5f\xc0\xa8\x00\x01\xc0\xa8\x00",
    ),
    (
        "IPv4 without the last byte of its options",
        b"\x46\x02\x00\x73\x00\x00\x40\x00\x40\x11\xb8\x5f\xc0\xa8\x00\x01\xc0\xa8\x00\xc7\x00\x00\x00",
        false,
        b"\x46\x02\x00\x73\x00\x00\x40\x00\x40\x11\xb8\x5f\xc0\xa8\x00\x01\xc0\xa8\x00\xc7\x00\x00\x00",
    ),
    (
        "IPv4 with too short a header length",
        b"\x44\x02\x00\x73\x00\x00\x40\x00\x40\x11\xb8\x5f\xc0\xa8\x00\x01\xc0\xa8\x00\xc7",
        false,
        b"\x44\x02\x00\x73\x00\x00\x40\x00\x40\x11\xb8\x5f\xc0\xa8\x00\x01\xc0\xa8\x00\xc7",
    ),
    (
        "IPv6, Ect1, with a flow label",
        b"\x62\x99\x35\x54\x00\x00\x11\x40\x00\x00\x00\x00\x00\x00\x00\x00\
          \x00\x00\x00\x00\x00\x00\x00\x01\x00\x00\x00\x00\x00\x00\x00\x00\
          \x00\x00\x00\x00\x00\x00\x00\x01",
        true,
        b"\x62\xb9\x35\x54\x00\x00\x11\x40\x00\x00\x00\x00\x00\x00\x00\x00\
          \x00\x00\x00\x00\x00\x00\x00\x01\x00\x00\x00\x00\x00\x00\x00\x00\
          \x00\x00\x00\x00\x00\x00\x00\x01",
    ),
    (
        "IPv6, Ect0",
        b"\x60\x20\x00\x00\x00\x00\x11\x40\x00\x00\x00\x00\x00\x00\x00\x00\
          \x00\x00\x00\x00\x00\x00\x00\x01\x00\x00\x00\x00\x00\x00\x00\x00\
          \x00\x00\x00\x00\x00\x00\x00\x01",
        true,
        b"\x60\x30\x00\x00\x00\x00\x11\x40\x00\x00\x00\x00\x00\x00\x00\x00\
          \x00\x00\x00\x00\x00\x00\x00\x01\x00\x00\x00\x00\x00\x00\x00\x00\
          \x00\x00\x00\x00\x00\x00\x00\x01",
    ),
    (
        "IPv6, Ce",
        b"\x60\x30\x00\x00\x00\x00\x11\x40\x00\x00\x00\x00\x00\x00\x00\x00\
          \x00\x00\x00\x00\x00\x00\x00\x01\x00\x00\x00\x00\x00\x00\x00\x00\
          \x00\x00\x00\x00\x00\x00\x00\x01",
        true,
        b"\x60\x30\x00\x00\x00\x00\x11\x40\x00\x00\x00\x00\x00\x00\x00\x00\
          \x00\x00\x00\x00\x00\x00\x00\x01\x00\x00\x00\x00\x00\x00\x00\x00\
          \x00\x00\x00\x00\x00\x00\x00\x01",
    ),
    (
        "IPv6, NotEct, with ones all round the codepoint",
        b"\x6f\xcf\xff\xff\x00\x00\x11\x40\x00\x00\x00\x00\x00\x00\x00\x00\
          \x00\x00\x00\x00\x00\x00\x00\x01\x00\x00\x00\x00\x00\x00\x00\x00\
          \x00\x00\x00\x00\x00\x00\x00\x01",
        false,
        b"\x6f\xcf\xff\xff\x00\x00\x11\x40\x00\x00\x00\x00\x00\x00\x00\x00\
          \x00\x00\x00\x00\x00\x00\x00\x01\x00\x00\x00\x00\x00\x00\x00\x00\
          \x00\x00\x00\x00\x00\x00\x00\x01",
    ),
    (
        "IPv6 without its last byte",
        b"\x60\x20\x00\x00\x00\x00\x11\x40\x00\x00\x00\x00\x00\x00\x00\x00\
          \x00\x00\x00\x00\x00\x00\x00\x01\x00\x00\x00\x00\x00\x00\x00\x00\
          \x00\x00\x00\x00\x00\x00\x00",
        false,
        b"\x60\x20\x00\x00\x00\x00\x11\x40\x00\x00\x00\x00\x00\x00\x00\x00\
          \x00\x00\x00\x00\x00\x00\x00\x01\x00\x00\x00\x00\x00\x00\x00\x00\
          \x00\x00\x00\x00\x00\x00\x00",
    ),
    ("no bytes", b"", false, b""),
    ("one byte", b"\x45", false, b"\x45"),
];

#[test]
fn marks_worked_heads() {
    for (name, packet, is_marked, expected) in WORKED {
        let mut bytes = packet.to_vec();
        assert_eq!(mark_head(&mut bytes), *is_marked, "{name}");
        assert_eq!(bytes, *expected, "{name}");
    }
}

const HEADS: u32 = 100_000;

/// A byte that a word says.
fn byte_of(word: u64) -> u8 {
    ((word >> 32) % 256) as u8
}

/// Up to 64 random bytes, of which the first mostly begins a header that may be whole.
fn random_packet(words: &mut Words) -> Vec<u8> {
    let count = words.next() % 65;
    let mut packet: Vec<u8> = (0..count).map(|_| byte_of(words.next())).collect();
    if let Some(first) = packet.first_mut() {
        let byte = byte_of(words.next());
        *first = match words.next() % 8 {
            0..=3 => 0x45,
            4 | 5 => 0x40 | byte & 0x0f,
            6 => 0x60 | byte & 0x0f,
            _ => byte,
        };
    }
    if let Some(length) = whole_ipv4_header(&packet) {
        write_checksum(&mut packet[..length]);
    }
    packet
}

/// The length of the IPv4 header, where all of it is there.
fn whole_ipv4_header(packet: &[u8]) -> Option<usize> {
    let first = *packet.first()?;
    let length = usize::from(first & 0x0f) * 4;
    let is_whole = first >> 4 == 4 && length >= 20 && length <= packet.len();
    is_whole.then_some(length)
}

/// Writes the checksum that brings the sum of a header's words to a multiple of 65535.
fn write_checksum(header: &mut [u8]) {
    header[10..12].fill(0);
    let words = header
        .chunks(2)
        .map(|it| u32::from(it[0]) * 256 + u32::from(it[1]));
    let checksum = (65535 - words.sum::<u32>() % 65535) % 65535;
    header[10] = (checksum / 256) as u8;
    header[11] = (checksum % 256) as u8;
}

/// Marks by the places in the diagrams, and answers whether it is marked now.
fn mark_plainly(packet: &mut [u8]) -> bool {
    let length = whole_ipv4_header(packet);
    let (mask, is_whole) = match packet.first().map(|first| first >> 4) {
        Some(4) => (0x03, length.is_some()),
        Some(6) => (0x30, packet.len() >= 40),
        _ => (0, false),
    };
    if !is_whole || packet[1] & mask == 0 {
        return false;
    }
    packet[1] |= mask;
    if let Some(length) = length {
        write_checksum(&mut packet[..length]);
    }
    true
}

/// How many heads of each kind were seen.
#[derive(Default)]
struct Seen {
    unmarked: u32,
    marked_before: u32,
    ipv4: u32,
    ipv6: u32,
}

impl Seen {
    fn note(&mut self, packet: &Packet) {
        match (packet.ecn(), packet.src()) {
            (0, _) => self.unmarked += 1,
            (3, _) => self.marked_before += 1,
            (_, Some(IpAddr::V4(_))) => self.ipv4 += 1,
            _ => self.ipv6 += 1,
        }
    }
}

/// What is read of a packet, with its hash, but for the codepoint.
fn read(packet: &Packet) -> impl PartialEq + std::fmt::Debug {
    let addresses = (packet.src(), packet.dst());
    (
        addresses,
        packet.proto(),
        packet.ports(),
        packet.prio(),
        packet.hash(),
    )
}

/// A packet is marked as the plain body marks its copy, and then has the same head but for the
/// codepoint.
fn compare(mut packet: Vec<u8>, seen: &mut Seen, nth: u32) {
    let mut plain = packet.clone();
    let before = Packet::read(&packet, 1, 0, 0);
    seen.note(&before);
    let is_marked = mark_head(&mut packet);
    assert_eq!(is_marked, mark_plainly(&mut plain), "head {nth}");
    assert_eq!(packet, plain, "head {nth}");
    let after = Packet::read(&packet, 1, 0, 0);
    assert_eq!(read(&after), read(&before), "head {nth}");
    let ecn = if is_marked { 3 } else { before.ecn() };
    assert_eq!(after.ecn(), ecn, "head {nth}");
}

#[test]
fn marks_random_heads() {
    let mut words = Words::new();
    let mut seen = Seen::default();
    for nth in 0..HEADS {
        compare(random_packet(&mut words), &mut seen, nth);
    }
    // Each kind was tried.
    assert!(seen.unmarked > 1000 && seen.marked_before > 1000);
    assert!(seen.ipv4 > 1000 && seen.ipv6 > 1000);
}
