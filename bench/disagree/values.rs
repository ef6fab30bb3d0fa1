//! Values of all kinds, good ones mostly, and often those at the ends of a range.

use super::random::Random;

pub const HOSTILE: &[&str] = &[
    "0",
    "00",
    "1",
    "2",
    "3",
    "15",
    "16",
    "17",
    "255",
    "256",
    "65535",
    "65536",
    "100000",
    "100001",
    "1000000",
    "4294967295",
    "4294967296",
    "4611686018427387904",
    "4611686018427387905",
    "18446744073709551615",
    "18446744073709551616",
    "99999999999999999999999999999999999999999",
    "000000000000000000000000000000000001",
    "-1",
    "+1",
    "1.",
    ".5",
    "0.5",
    "1.0000000001",
    "1.000000001",
    "0.9b",
    "0x10",
    "1e3",
    "x",
    "1k",
    "1K",
    "1kb",
    "1kbit",
    "32kbit",
    "1mbit",
    "1.5mbps",
    "1gbit",
    "1tbit",
    "1tbps",
    "1.000000000001tbit",
    "4gb",
    "4096m",
    "1b",
    "1ki",
    "1kibit",
    "1ms",
    "1us",
    "0.0001us",
    "1000s",
    "1000.000000001s",
    "1000001ms",
    "1USECS",
    "5ns",
    "100%",
    "1:",
    "1:0",
    "1:00",
    "1:1",
    "1:ffff",
    "1:10000",
    ":1",
    ":",
    "1::",
    "0:1",
    "0:1:1",
    "ffff:",
    "fffe:",
    "fffe:1",
    "12345:",
    "12345:g",
    "00001:1",
    "g:1",
    "A:b",
    "0001:0001",
    "1.2.3.4",
    "010.0.0.1",
    "1.2.3.0004",
    "1.2.3.00256",
    "0001.2.3.256",
    "1.2.3",
    "1.2.3.4.5",
    "1.2.3.x",
    "1.2.3.4/",
    "1.2.3.4/0",
    "1.2.3.4/008",
    "1.2.3.4/32",
    "1.2.3.4/33",
    "1.2.3.256/8",
    "1.2.3.256/x",
    "1.2.3/33",
    "::",
    "::/0",
    "::1",
    "::1/128",
    "::1/129",
    "::1/x",
    ":::",
    "1::2::3",
    "1:2:3:4:5:6:7::",
    "1:2:3:4:5:6:7:8::",
    "1:2:3:4:5:6:7:8",
    "12345::",
    "::1.2.3.4",
    "FE80::A/010",
    "ff",
    "100",
];

pub const WORDS: &[&str] = &[
    "tc",
    "-s",
    "qdisc",
    "class",
    "filter",
    "add",
    "change",
    "del",
    "delete",
    "show",
    "list",
    "ls",
    "replace",
    "dev",
    "eth0",
    "root",
    "parent",
    "handle",
    "classid",
    "flowid",
    "prio",
    "pref",
    "protocol",
    "ip",
    "ipv6",
    "all",
    "pfifo",
    "bfifo",
    "tbf",
    "drr",
    "fq_codel",
    "flower",
    "limit",
    "latency",
    "rate",
    "burst",
    "buffer",
    "maxburst",
    "bands",
    "priomap",
    "flows",
    "quantum",
    "target",
    "interval",
    "ecn",
    "noecn",
    "drop_batch",
    "ip_proto",
    "src_ip",
    "dst_ip",
    "src_port",
    "dst_port",
    "pkt",
    "frame",
    "at",
    "poll",
    "reap",
    "totals",
    "hash",
    "tcp",
    "udp",
    "icmp",
    "icmpv6",
    "sctp",
    "TCP",
    "#",
    "#x",
    "netem",
    "abcdefghijklmno",
    "abcdefghijklmnop",
];

/// Words with bytes that are seldom seen: not UTF-8 the first, then UTF-8, then bytes that are no blanks here.
pub const BYTES: &[&[u8]] = &[
    b"\xff",
    b"x\xff",
    b"#\xff",
    b"\xc0\x80",
    b"\xed\xa0\x80",
    b"\xf4\x90\x80\x80",
    b"\xe2\x82",
    b"\xc3\xa9",
    "\u{10ffff}".as_bytes(),
    b"eth0\xc3\xa9\xc3\xa9\xc3\xa9\xc3\xa9\xc3\xa9\xc3\xa9",
    b"1\x0c2",
    b"\x0b",
    b"\0",
    b"pkt\x0c",
];

pub fn len(random: &mut Random) -> u64 {
    match random.below(20) {
        0..6 => 1000,
        6..9 => random.number(&[40, 64, 100, 500]),
        9..13 => random.number(&[1500, 1514, 1515, 1513]),
        13..18 => 1 + random.below(1600),
        18 => random.number(&[1, 2, 9000, 65_534, 65_535]),
        _ => 1 + random.below(65_535),
    }
}

/// A limit of packets.
pub fn packets(random: &mut Random) -> u64 {
    match random.below(10) {
        0..6 => 1 + random.below(12),
        6 => 0,
        7 => 4_294_967_295,
        _ => 1 + random.below(200),
    }
}

pub fn size(random: &mut Random) -> String {
    match random.below(10) {
        0..4 => random.below(4000).to_string(),
        4..7 => random
            .pick(&["1514", "1", "1500b", "2k", "3000", "10kb", "1.5kb", "16kbit", "300"])
            .into(),
        7 => random
            .pick(&[
                "4294967295",
                "4095m",
                "0",
                "0.9b",
                "1mb",
                "65535",
                "1g",
                "3.5gb",
                "0.01mbit",
                "1gbit",
            ])
            .into(),
        _ => format!("{}b", 1000 + random.below(9000)),
    }
}

/// A size that is no 0, for quanta and bursts.
pub fn amount(random: &mut Random) -> String {
    match size(random).as_str() {
        "0" | "0.9b" => "1".into(),
        other => other.into(),
    }
}

pub fn rate(random: &mut Random) -> String {
    match random.below(10) {
        0..3 => random
            .pick(&["8000bit", "1mbit", "8kbit", "100kbit", "1000bps", "800kbit"])
            .into(),
        3..5 => random.pick(&["10mbit", "100mbit", "1gbit"]).into(),
        5..7 => (1 + random.below(10_000_000)).to_string(),
        7 => random
            .pick(&[
                "1",
                "1tbit",
                "3",
                "7bit",
                "999999999999",
                "0.125bps",
                "125gbps",
                "9kbps",
                "1.5mbps",
                "0.1tbps",
            ])
            .into(),
        8 => format!("{}.{:03}mbit", random.below(20), 1 + random.below(999)),
        _ => format!("{}kbit", 1 + random.below(100_000)),
    }
}

pub fn time(random: &mut Random) -> String {
    match random.below(10) {
        0..4 => random.pick(&["5ms", "100ms", "1ms", "10ms", "20us", "1s"]).into(),
        4 => random
            .pick(&["300usec", "20USecs", "5msec", "0.25msecs", "0.5sec", "2secs"])
            .into(),
        5..7 => format!("{}us", random.below(200_000)),
        7 => random
            .pick(&["0", "1000s", "0.001us", "1us", "1", "999.999999999s"])
            .into(),
        _ => format!("{}.{}ms", random.below(30), random.below(1000)),
    }
}

pub fn address(random: &mut Random) -> String {
    match random.below(8) {
        0..4 => format!("10.0.{}.{}", random.below(2), random.below(4)),
        4 => random
            .pick(&["192.168.1.77", "255.255.255.255", "0.0.0.0", "010.000.0.001"])
            .into(),
        5 => random
            .pick(&["::", "::1", "fe80::1:2", "1:2:3:4:5:6:7::", "FE80:0:0:0:0:0:1:3"])
            .into(),
        _ => format!("fe80::{:x}:{:x}", random.below(3), random.below(4)),
    }
}

pub fn prefix(random: &mut Random) -> String {
    let address = address(random);
    let bits = if address.contains(':') { 129 } else { 33 };
    match random.below(4) {
        0 => address,
        1 => format!("{address}/{}", random.number(&[0, 8, 16, 24, 30, 31, 32])),
        _ => format!("{address}/{}", random.below(bits)),
    }
}

pub fn proto(random: &mut Random) -> String {
    match random.below(8) {
        0..6 => random
            .pick(&["tcp", "udp", "sctp", "icmp", "icmpv6", "6", "11", "3A"])
            .into(),
        _ => format!("{:x}", random.below(256)),
    }
}

pub fn port(random: &mut Random) -> u64 {
    match random.below(10) {
        0..8 => random.below(4),
        8 => random.number(&[53, 22, 65_535, 443]),
        _ => random.below(65_536),
    }
}

/// A head of IPv4 or IPv6 in hexadecimal digits, whole or cut, at times with a byte changed.
pub fn head(random: &mut Random) -> String {
    let mut bytes = if random.chance(60) { ipv4(random) } else { ipv6(random) };
    for _ in 0..2 {
        bytes.extend((port(random) as u16).to_be_bytes());
    }
    if random.chance(15) {
        let index = random.index(bytes.len());
        bytes[index] = random.next() as u8;
    }
    if random.chance(20) {
        bytes.truncate(1 + random.index(bytes.len()));
    }
    let is_upper = random.chance(20);
    let digits = |byte: &u8| {
        if is_upper {
            format!("{byte:02X}")
        } else {
            format!("{byte:02x}")
        }
    };
    bytes.iter().map(digits).collect()
}

fn ipv4(random: &mut Random) -> Vec<u8> {
    let words = if random.chance(80) { 5 } else { random.below(16) };
    let mut bytes = vec![0; (4 * words as usize).max(20)];
    bytes[0] = 0x40 | words as u8;
    bytes[1] = random.next() as u8;
    if random.chance(15) {
        bytes[6] = random.next() as u8;
        bytes[7] = random.below(2) as u8;
    }
    bytes[9] = random.number(&[6, 17, 132, 1, 17, 6]) as u8;
    bytes[12..16].copy_from_slice(&[10, 0, random.below(2) as u8, random.below(4) as u8]);
    bytes[16..20].copy_from_slice(&[10, 0, random.below(2) as u8, random.below(4) as u8]);
    bytes
}

fn ipv6(random: &mut Random) -> Vec<u8> {
    let mut bytes = vec![0; 40];
    let traffic = random.next() as u8;
    bytes[0] = 0x60 | traffic >> 4;
    bytes[1] = traffic << 4;
    bytes[6] = random.number(&[6, 17, 132, 58, 0, 17]) as u8;
    for at in [8, 24] {
        bytes[at] = 0xfe;
        bytes[at + 1] = 0x80;
        bytes[at + 15] = random.below(4) as u8;
    }
    bytes
}
