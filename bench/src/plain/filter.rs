//! The filters of a node, of which the first that takes a packet names its class.

use super::head::FlowKey;
use super::line::{Keys, Prefix, Protocol, bits};
use super::place::at;
use std::net::IpAddr;

/// The addresses of one family with the same first bits.
#[derive(Clone, Copy)]
pub struct Network {
    pub family: u8,
    pub address: u128,
    pub rest: u32,
}

impl Network {
    fn of(prefix: Prefix) -> Network {
        let (family, width) = match prefix.address {
            IpAddr::V4(_) => (4, 32),
            IpAddr::V6(_) => (6, 128),
        };
        Network {
            family,
            address: bits(prefix.address),
            rest: width - u32::from(prefix.len),
        }
    }

    fn has(&self, family: u8, address: u128) -> bool {
        let differing = self.address ^ address;
        self.family == family && differing.checked_shr(self.rest).unwrap_or(0) == 0
    }
}

/// What a filter asks of ports, protocol and family, which are compared as one number.
#[derive(Clone, Copy)]
pub struct Word {
    pub mask: u64,
    pub value: u64,
}

#[inline(always)]
pub fn word_of(sport: u16, dport: u16, proto: u8, family: u8) -> u64 {
    u64::from(sport) | u64::from(dport) << 16 | u64::from(proto) << 32 | u64::from(family) << 40
}

#[derive(Clone, Copy)]
pub struct Rest {
    pub prio: u16,
    /// The place of its class among the node's children.
    pub place: u16,
    pub src: Option<Network>,
    pub dst: Option<Network>,
}

/// The filters in their order, the words of all beside one another.
#[derive(Default)]
pub struct Filters {
    pub words: Vec<Word>,
    pub rest: Vec<Rest>,
}

impl Filters {
    pub fn add(&mut self, prio: u16, protocol: Protocol, keys: &Keys, place: u16) {
        let family = match protocol {
            Protocol::All => None,
            Protocol::Ip => Some(4),
            Protocol::Ipv6 => Some(6),
        };
        let all = |is_asked: bool| if is_asked { u16::MAX } else { 0 };
        let (sport, dport) = (keys.src_port, keys.dst_port);
        let word = Word {
            mask: word_of(
                all(sport.is_some()),
                all(dport.is_some()),
                all(keys.ip_proto.is_some()) as u8,
                all(family.is_some()) as u8,
            ),
            value: word_of(
                sport.unwrap_or(0),
                dport.unwrap_or(0),
                keys.ip_proto.unwrap_or(0),
                family.unwrap_or(0),
            ),
        };
        let rest = Rest {
            prio,
            place,
            src: keys.src_ip.map(Network::of),
            dst: keys.dst_ip.map(Network::of),
        };
        let index = self.rest.partition_point(|other| other.prio <= prio);
        self.words.insert(index, word);
        self.rest.insert(index, rest);
    }

    /// The place of the class that the filters name.
    #[inline(always)]
    pub fn place_of(&self, key: &FlowKey) -> Option<u16> {
        let word = word_of(key.sport, key.dport, key.proto, key.family);
        for (index, filter) in self.words.iter().enumerate() {
            if (word ^ filter.value) & filter.mask == 0 {
                let rest = at(&self.rest, index);
                if (rest.src.is_none() && rest.dst.is_none()) || rest.has(key) {
                    return Some(rest.place);
                }
            }
        }
        None
    }
}

impl Rest {
    #[inline(never)]
    pub fn has(&self, key: &FlowKey) -> bool {
        self.src.is_none_or(|net| net.has(key.family, key.src))
            && self.dst.is_none_or(|net| net.has(key.family, key.dst))
    }
}
