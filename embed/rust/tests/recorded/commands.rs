//! Commands of all kinds, with options of all values, on a few handles and classes.
use crate::chance::Chance;
use crate::events::{address, proto};
use crate::kinds::{Kind, kind};
use qtree::Place;
use std::net::IpAddr;

/// A command, by numbers.
#[derive(Clone, Debug)]
pub enum Command {
    QdiscAdd(Place, Option<u16>, Kind),
    /// It names the place, the handle, or both.
    QdiscChange(Option<Place>, Option<u16>, Kind),
    /// The same.
    QdiscDel(Option<Place>, Option<u16>),
    /// The qdisc, the class and its quantum.
    ClassAdd(u16, Class, Option<u32>),
    ClassChange(Option<u16>, Class, Option<u32>),
    ClassDel(Option<u16>, Class),
    /// The qdisc, and the filter.
    FilterAdd(u16, Filter),
    /// The qdisc, and the priority of its filters.
    FilterDel(u16, u16),
}

/// The handle and the number of a class.
pub type Class = (u16, u16);

/// Which packets go into which class.
#[derive(Clone, Debug)]
pub struct Filter {
    pub prio: u16,
    pub protocol: &'static str,
    pub ip_proto: Option<u8>,
    pub src_ip: Option<Prefix>,
    pub dst_ip: Option<Prefix>,
    pub src_port: Option<u16>,
    pub dst_port: Option<u16>,
    pub class: Class,
}

/// An address, and how many of its bits count.
pub type Prefix = (IpAddr, u8);

/// A command. Qdiscs and classes are removed less often than they are added.
pub fn command(chance: &mut Chance) -> Command {
    match chance.below(16) {
        0..=3 => qdisc_add(chance),
        4 => {
            let (place, handle) = named(chance);
            Command::QdiscChange(place, handle, kind(chance))
        }
        5 | 6 => qdisc_del(chance),
        7..=9 => {
            let class = class(chance);
            Command::ClassAdd(parent(chance, class), class, quantum(chance))
        }
        10 => {
            let class = class(chance);
            Command::ClassChange(some_parent(chance, class), class, quantum(chance))
        }
        11 => {
            let class = class(chance);
            Command::ClassDel(some_parent(chance, class), class)
        }
        12..=14 => filter_add(chance),
        _ => Command::FilterDel(handle(chance), number(chance)),
    }
}

fn qdisc_add(chance: &mut Chance) -> Command {
    let (place, handle) = (place(chance), some_handle(chance));
    Command::QdiscAdd(place, handle, kind(chance))
}

// Seldom the root.
fn qdisc_del(chance: &mut Chance) -> Command {
    let (place, handle) = named(chance);
    if place == Some(Place::Root) && !chance.hits(2) {
        return qdisc_add(chance);
    }
    Command::QdiscDel(place, handle)
}

fn named(chance: &mut Chance) -> (Option<Place>, Option<u16>) {
    match chance.below(4) {
        0 => (Some(place(chance)), None),
        1 | 2 => (None, Some(handle(chance))),
        _ => (Some(place(chance)), Some(handle(chance))),
    }
}

// Mostly the qdisc of the class.
fn parent(chance: &mut Chance, (major, _): Class) -> u16 {
    if chance.hits(8) {
        handle(chance)
    } else {
        major
    }
}

fn some_parent(chance: &mut Chance, class: Class) -> Option<u16> {
    (!chance.hits(2)).then(|| parent(chance, class))
}

// 1 to 4, or any.
fn handle(chance: &mut Chance) -> u16 {
    let most = if chance.hits(16) { 65_534 } else { 4 };
    chance.short(most) + 1
}

fn some_handle(chance: &mut Chance) -> Option<u16> {
    (!chance.hits(16)).then(|| handle(chance))
}

fn class(chance: &mut Chance) -> Class {
    (handle(chance), number(chance))
}

// The number of a class, or a priority of filters: 1 to 3, or any.
fn number(chance: &mut Chance) -> u16 {
    let most = if chance.hits(16) { 65_535 } else { 3 };
    chance.short(most) + 1
}

fn place(chance: &mut Chance) -> Place {
    if chance.hits(4) {
        return Place::Root;
    }
    let (major, minor) = class(chance);
    Place::Class(major, minor)
}

// At least 1.
fn quantum(chance: &mut Chance) -> Option<u32> {
    chance.some_word(5_000).filter(|bytes| *bytes > 0)
}

// The version of the addresses of a filter's packets is that of its protocol, where it has one.
fn filter_add(chance: &mut Chance) -> Command {
    let (protocol, bits) = match chance.below(4) {
        0 => ("ip", 32),
        1 => ("ipv6", 128),
        2 => ("all", 32),
        _ => ("all", 128),
    };
    let (src_ip, dst_ip) = (prefix(chance, bits), prefix(chance, bits));
    let (src_port, dst_port) = (port(chance), port(chance));
    let ip_proto = (!chance.hits(2)).then(|| proto(chance));
    let (prio, minor, parent) = (number(chance), number(chance), handle(chance));
    let major = if chance.hits(8) {
        handle(chance)
    } else {
        parent
    };
    let filter = Filter {
        prio,
        protocol,
        ip_proto,
        src_ip,
        dst_ip,
        src_port,
        dst_port,
        class: (major, minor),
    };
    Command::FilterAdd(parent, filter)
}

fn port(chance: &mut Chance) -> Option<u16> {
    chance.hits(4).then(|| chance.short(1 << 16))
}

// Mostly a short prefix, which many addresses have.
fn prefix(chance: &mut Chance, bits: u8) -> Option<Prefix> {
    if !chance.hits(3) {
        return None;
    }
    let most = if chance.hits(4) { bits } else { 2 };
    let len = chance.byte(u64::from(most) + 1);
    Some((address(chance, bits), len))
}
