//! Frames of Ethernet, in which `tshark` 4.0.17 finds the header of IPv4 or IPv6 at the byte beside
//! them, or none. Behind three tags it finds one; here a frame has two at most.
use qtree::ip_at;

/// What it is, its first bytes, and where its IP header begins.
type Framed = (&'static str, &'static [u8], Option<usize>);

const FRAMES: &[Framed] = &[
    (
        "IPv4",
        b"\x02\x00\x00\x00\x00\x02\x02\x00\x00\x00\x00\x01\x08\x00\x45\x00",
        Some(14),
    ),
    (
        "IPv6 behind a customer tag",
        b"\x02\x00\x00\x00\x00\x02\x02\x00\x00\x00\x00\x01\x81\x00\x20\x05\x86\xdd\x60\x00",
        Some(18),
    ),
    (
        "IPv4 behind a service and a customer tag",
        b"\x02\x00\x00\x00\x00\x02\x02\x00\x00\x00\x00\x01\x88\xa8\x00\x64\x81\x00\x00\x05\x08\x00\x45\x00",
        Some(22),
    ),
    (
        "IPv4 behind two customer tags",
        b"\x02\x00\x00\x00\x00\x02\x02\x00\x00\x00\x00\x01\x81\x00\x00\x64\x81\x00\x00\x05\x08\x00\x45\x00",
        Some(22),
    ),
    (
        "IPv4 behind three tags",
        b"\x02\x00\x00\x00\x00\x02\x02\x00\x00\x00\x00\x01\x88\xa8\x00\x64\x81\x00\x00\x05\x81\x00\x00\x06\
          \x08\x00\x45\x00",
        None,
    ),
    (
        "ARP",
        b"\x02\x00\x00\x00\x00\x02\x02\x00\x00\x00\x00\x01\x08\x06\x00\x01",
        None,
    ),
    (
        "ARP behind a customer tag",
        b"\x02\x00\x00\x00\x00\x02\x02\x00\x00\x00\x00\x01\x81\x00\x00\x05\x08\x06\x00\x01",
        None,
    ),
    (
        "a length and no type",
        b"\x01\x80\xc2\x00\x00\x00\x02\x00\x00\x00\x00\x01\x00\x26\x42\x42\x03\x00",
        None,
    ),
];

#[test]
fn finds_ip_in_frames() {
    for (name, frame, at) in FRAMES {
        assert_eq!(ip_at(frame), *at, "{name}");
    }
}

#[test]
fn finds_none_before_its_type_ends() {
    for (name, frame, at) in FRAMES {
        for n in 0..at.unwrap_or(frame.len()) {
            assert_eq!(ip_at(&frame[..n]), None, "{n} bytes of {name}");
        }
    }
}
