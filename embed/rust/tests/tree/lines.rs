//! What the tests ask of a device: lines of tc, by numbers alone, and packets.
//!
//! A handle of 0 is none, and a class has its major and its minor number.
use qtree::{Packet, Place};

/// A qdisc to make.
#[derive(Clone, Copy, Debug, PartialEq, Eq)]
pub enum New {
    Pfifo,
    /// The limit in packets.
    Packets(u32),
    /// So many bands; a priority has the band of its number, or the last.
    Prio(u8),
    /// The limit in bytes.
    Bfifo(u32),
    /// The limit in packets; there is one flow.
    FqCodel(u32),
    /// So many flows.
    Flows(u32),
    /// A thousand flows with this quantum.
    Fair(u32),
    /// The burst; the rate is 1 mbit a second, and the limit 10,000 bytes.
    Tbf(u32),
    /// The rate in bits a second and the burst; the limit is 1,000,000 bytes.
    Shaper(u64, u32),
    /// It has no classes yet.
    Drr,
}

impl New {
    fn words(self) -> String {
        match self {
            New::Pfifo => "pfifo".into(),
            New::Packets(limit) => format!("pfifo limit {limit}"),
            New::Bfifo(bytes) => format!("bfifo limit {bytes}"),
            New::FqCodel(limit) => format!("fq_codel limit {limit} flows 1"),
            New::Flows(count) => format!("fq_codel flows {count}"),
            New::Fair(quantum) => format!("fq_codel flows 1000 quantum {quantum}"),
            New::Prio(bands) => prio(bands),
            New::Drr => "drr".into(),
            New::Tbf(burst) => tbf(1_000_000, burst, 10_000),
            New::Shaper(rate, burst) => tbf(rate, burst, 1_000_000),
        }
    }
}

fn tbf(rate: u64, burst: u32, limit: u32) -> String {
    format!("tbf rate {rate}bit burst {burst} limit {limit}")
}

fn prio(bands: u8) -> String {
    let map: Vec<String> = (0..16u8)
        .map(|prio| prio.min(bands.saturating_sub(1)).to_string())
        .collect();
    format!("prio bands {bands} priomap {}", map.join(" "))
}

/// The packet with this number, length and priority, which is the number of its IP protocol and its
/// hash too.
pub fn packet(number: u64, len: u16, prio: u8) -> Packet {
    Packet::builder(len)
        .number(0, number)
        .proto(prio)
        .prio(prio)
        .hash(prio.into())
        .build()
        .expect("a packet within its ranges")
}

fn at(place: Option<Place>) -> String {
    match place {
        None => String::new(),
        Some(Place::Class(major, minor)) => format!(" parent {major:x}:{minor:x}"),
        Some(place) => format!(" {place}"),
    }
}

fn handle(major: u16) -> String {
    match major {
        0 => String::new(),
        major => format!(" handle {major:x}:"),
    }
}

fn quantum(bytes: u32) -> String {
    match bytes {
        0 => String::new(),
        bytes => format!(" quantum {bytes}"),
    }
}

/// A new qdisc.
pub fn graft(place: Place, major: u16, new: New) -> String {
    let (place, handle) = (at(Some(place)), handle(major));
    format!("tc qdisc add dev wan{place}{handle} {}", new.words())
}

/// Other settings of a qdisc, which is named by its place, its handle or both.
pub fn change(place: Option<Place>, major: u16, new: New) -> String {
    let (place, handle) = (at(place), handle(major));
    format!("tc qdisc change dev wan{place}{handle} {}", new.words())
}

/// The removal of a qdisc, which is named by its place, its handle or both.
pub fn prune(place: Option<Place>, major: u16) -> String {
    format!("tc qdisc del dev wan{}{}", at(place), handle(major))
}

/// A new class of a drr; a quantum of 0 is none.
pub fn add_class(parent: u16, (major, minor): (u16, u16), bytes: u32) -> String {
    let quantum = quantum(bytes);
    format!("tc class add dev wan parent {parent:x}: classid {major:x}:{minor:x} drr{quantum}")
}

/// Another quantum of a class; a parent of 0 is none.
pub fn change_class(parent: u16, (major, minor): (u16, u16), bytes: u32) -> String {
    let (parent, quantum) = (parent_of(parent), quantum(bytes));
    format!("tc class change dev wan{parent} classid {major:x}:{minor:x} drr{quantum}")
}

/// The removal of a class; a parent of 0 is none.
pub fn del_class(parent: u16, (major, minor): (u16, u16)) -> String {
    let parent = parent_of(parent);
    format!("tc class del dev wan{parent} classid {major:x}:{minor:x}")
}

fn parent_of(major: u16) -> String {
    match major {
        0 => String::new(),
        major => format!(" parent {major:x}:"),
    }
}

/// A filter into a class, for every packet or for those of an IP protocol.
pub fn add_filter(parent: u16, (major, minor): (u16, u16), proto: Option<u8>) -> String {
    let key = proto.map_or(String::new(), |proto| format!(" ip_proto {proto}"));
    format!(
        "tc filter add dev wan parent {parent:x}: prio 1 protocol all flower{key} classid {major:x}:{minor:x}"
    )
}

/// The removal of the filters of a priority.
pub fn del_filters(parent: u16, prio: u16) -> String {
    format!("tc filter del dev wan parent {parent:x}: prio {prio}")
}
