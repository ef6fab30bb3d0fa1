//! A reader of every line of the language, by `parse` and the addresses of `std::net`.

use super::head::{Head, read_head};
use super::words::Words;
use std::net::{IpAddr, Ipv6Addr};

#[derive(Clone, Copy)]
#[allow(dead_code, reason = "the checksum does not have every field")]
pub enum Line {
    Blank,
    Tc(Command),
    Show { object: Object, counters: bool },
    At(u64),
    Pkt(Arrival),
    Frame { len: u16, head: Head },
    Poll(u32),
    Reap,
    Totals,
}

#[derive(Clone, Copy)]
pub enum Object {
    Qdisc,
    Class,
    Filter,
}

#[derive(Clone, Copy)]
pub struct ClassId {
    pub major: u16,
    pub minor: u16,
}

#[derive(Clone, Copy)]
pub enum Place {
    Root,
    Class(ClassId),
}

#[derive(Clone, Copy)]
pub enum TbfLimit {
    Bytes(u32),
    Latency(u64),
}

#[derive(Clone, Copy, Default)]
pub struct FqCodel {
    pub limit: Option<u32>,
    pub flows: Option<u32>,
    pub quantum: Option<u32>,
    pub target: Option<u64>,
    pub interval: Option<u64>,
    pub ecn: Option<bool>,
    pub drop_batch: Option<u32>,
}

#[derive(Clone, Copy)]
#[allow(dead_code, reason = "the checksum does not have every field")]
pub enum Kind {
    Pfifo { limit: Option<u32> },
    Bfifo { limit: Option<u32> },
    Prio { bands: u8, priomap: [u8; 16] },
    Tbf { rate: u64, burst: u32, limit: TbfLimit },
    Drr,
    FqCodel(FqCodel),
}

#[derive(Clone, Copy)]
pub enum Protocol {
    All,
    Ip,
    Ipv6,
}

#[derive(Clone, Copy)]
pub struct Prefix {
    pub address: IpAddr,
    pub len: u8,
}

#[derive(Clone, Copy, Default)]
pub struct Keys {
    pub ip_proto: Option<u8>,
    pub src_ip: Option<Prefix>,
    pub dst_ip: Option<Prefix>,
    pub src_port: Option<u16>,
    pub dst_port: Option<u16>,
}

#[derive(Clone, Copy)]
#[allow(dead_code, reason = "the checksum does not have every field")]
pub enum Command {
    QdiscAdd {
        place: Place,
        handle: Option<u16>,
        kind: Kind,
    },
    QdiscChange {
        place: Option<Place>,
        handle: Option<u16>,
        kind: Kind,
    },
    QdiscDel {
        place: Option<Place>,
        handle: Option<u16>,
    },
    ClassAdd {
        parent: u16,
        class: ClassId,
        quantum: Option<u32>,
    },
    ClassChange {
        parent: Option<u16>,
        class: ClassId,
        quantum: Option<u32>,
    },
    ClassDel {
        parent: Option<u16>,
        class: ClassId,
    },
    FilterAdd {
        parent: u16,
        prio: u16,
        protocol: Protocol,
        keys: Keys,
        class: ClassId,
    },
    FilterDel {
        parent: u16,
        prio: u16,
    },
}

/// What a `pkt` line says of its packet.
#[derive(Clone, Copy)]
pub struct Arrival {
    pub len: u16,
    pub hash: Option<u32>,
    pub prio: u8,
    pub ecn: u8,
    pub family: u8,
    pub proto: u8,
    pub src: u128,
    pub dst: u128,
    pub sport: u16,
    pub dport: u16,
}

/// Why a line cannot be read, with the index of the word.
#[allow(dead_code, reason = "the checksum does not have the index")]
pub enum Fault {
    UnknownWord(usize),
    Missing(usize),
    BadNumber(usize),
    OutOfRange(usize),
    Twice(usize),
    BadUtf8(usize),
}

type Read<T> = Result<T, Fault>;

pub fn read_line(line: &[u8]) -> Read<Line> {
    let mut words = Words::of(line);
    let Some(first) = words.next()? else {
        return Ok(Line::Blank);
    };
    match first {
        "pkt" => read_packet(words),
        "poll" => match words.next()? {
            None => Ok(Line::Poll(1)),
            Some(word) => {
                let polls = words.number(word, 1, 100_000)?;
                words.ended(Line::Poll(polls))
            }
        },
        "frame" => read_frame(words),
        "at" => {
            let word = words.needed()?;
            let ns = words.number(word, 0, 1 << 62)?;
            words.ended(Line::At(ns))
        }
        "tc" => super::line_tc::read_tc(words),
        "reap" => words.ended(Line::Reap),
        "totals" => words.ended(Line::Totals),
        _ if first.starts_with('#') => Ok(Line::Blank),
        _ => Err(words.unknown()),
    }
}

/// A packet's fields so far.
#[derive(Default)]
struct Fields {
    hash: Option<u32>,
    prio: Option<u8>,
    ip_proto: Option<u8>,
    src_ip: Option<IpAddr>,
    dst_ip: Option<IpAddr>,
    src_port: Option<u16>,
    dst_port: Option<u16>,
    ecn: Option<u8>,
}

fn read_packet(mut words: Words) -> Read<Line> {
    let word = words.needed()?;
    let len = words.number(word, 1, u16::MAX.into())?;
    let mut fields = Fields::default();
    while let Some(word) = words.next()? {
        match word {
            "hash" => {
                let word = words.option(&fields.hash)?;
                fields.hash = Some(words.number(word, 0, u32::MAX.into())?);
            }
            "prio" => {
                let word = words.option(&fields.prio)?;
                fields.prio = Some(words.number(word, 0, 15)?);
            }
            "ip_proto" => {
                let word = words.option(&fields.ip_proto)?;
                fields.ip_proto = Some(words.ip_proto(word)?);
            }
            "src_ip" => {
                let word = words.option(&fields.src_ip)?;
                fields.src_ip = Some(words.address(word, fields.dst_ip)?);
            }
            "dst_ip" => {
                let word = words.option(&fields.dst_ip)?;
                fields.dst_ip = Some(words.address(word, fields.src_ip)?);
            }
            "src_port" => {
                let word = words.option(&fields.src_port)?;
                fields.src_port = Some(words.number(word, 0, u16::MAX.into())?);
            }
            "dst_port" => {
                let word = words.option(&fields.dst_port)?;
                fields.dst_port = Some(words.number(word, 0, u16::MAX.into())?);
            }
            "ecn" => {
                let word = words.option(&fields.ecn)?;
                fields.ecn = Some(words.number(word, 0, 3)?);
            }
            _ => return Err(words.unknown()),
        }
    }
    Ok(Line::Pkt(arrival(len, &fields)))
}

fn arrival(len: u16, fields: &Fields) -> Arrival {
    let family = match fields.src_ip.or(fields.dst_ip) {
        Some(address) if address.is_ipv4() => 4,
        Some(_) => 6,
        None => 0,
    };
    Arrival {
        len,
        hash: fields.hash,
        prio: fields.prio.unwrap_or(0),
        ecn: fields.ecn.unwrap_or(0),
        family,
        proto: fields.ip_proto.unwrap_or(0),
        src: fields.src_ip.map_or(0, bits),
        dst: fields.dst_ip.map_or(0, bits),
        sport: fields.src_port.unwrap_or(0),
        dport: fields.dst_port.unwrap_or(0),
    }
}

pub fn bits(address: IpAddr) -> u128 {
    match address {
        IpAddr::V4(it) => it.to_bits().into(),
        IpAddr::V6(it) => Ipv6Addr::to_bits(it),
    }
}

/// The most bytes that a head is read from.
const HEAD_BYTES: usize = 64;

fn read_frame(mut words: Words) -> Read<Line> {
    let word = words.needed()?;
    let len = words.number(word, 1, 65535)?;
    let digits = words.needed()?.as_bytes();
    if digits.len() % 2 != 0 || !digits.iter().all(u8::is_ascii_hexdigit) {
        return Err(words.bad());
    }
    let mut bytes = [0; HEAD_BYTES];
    let (pairs, _) = digits.as_chunks::<2>();
    for (byte, [high, low]) in bytes.iter_mut().zip(pairs) {
        *byte = nibble(*high) << 4 | nibble(*low);
    }
    let head = read_head(&bytes[..pairs.len().min(HEAD_BYTES)]);
    words.ended(Line::Frame { len, head })
}

fn nibble(digit: u8) -> u8 {
    if digit <= b'9' {
        digit - b'0'
    } else {
        (digit | 0x20) - b'a' + 10
    }
}
