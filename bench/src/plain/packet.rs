use super::head::{Ecn, FlowKey};

/// A packet with its fields in the order in which Rattle lays them out: 80 bytes.
#[repr(C)]
#[derive(Clone, Copy)]
pub struct Packet {
    pub key: FlowKey,
    pub number: u64,
    pub port: u32,
    pub buf: u32,
    pub hash: u32,
    pub len: u16,
    pub prio: u8,
    pub ecn: Ecn,
}

impl Packet {
    /// What is in a place that was never used.
    pub const NONE: Packet = Packet {
        key: FlowKey::NONE,
        number: 0,
        port: 0,
        buf: 0,
        hash: 0,
        len: 0,
        prio: 0,
        ecn: Ecn::NotEct,
    };
}

/// A queued packet, with the time at which it was enqueued.
#[repr(C)]
#[derive(Clone, Copy)]
pub struct Stamped {
    pub packet: Packet,
    pub at: u64,
    /// The place of the packet behind it, in a list that is linked.
    pub next: u32,
}

impl Stamped {
    pub const NONE: Stamped = Stamped {
        packet: Packet::NONE,
        at: 0,
        next: 0,
    };
}

const _: () = assert!(size_of::<Packet>() == 80 && size_of::<Stamped>() == 96);

/// Why a packet is lost, by the numbers of Rattle.
#[derive(Clone, Copy)]
#[repr(u8)]
pub enum Cause {
    TooLong = 1,
    NoClass = 2,
    OverLimit = 3,
    Codel = 4,
    FatFlow = 5,
    #[allow(dead_code, reason = "the benchmark removes nothing")]
    Purged = 6,
}

pub struct Lost {
    pub packet: Packet,
    pub cause: Cause,
}

/// What became of a packet that was put.
#[derive(Clone, Copy)]
pub enum Put {
    Kept,
    Lost(Cause),
    /// Memory was refused, and nothing has changed.
    NoMemory,
}
