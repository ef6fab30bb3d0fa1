//! Each event as its line, in the one form of many in which a device records it.
use crate::commands::{Class, Command, Filter, Prefix};
use crate::events::{Event, What};
use qtree::{Packet, Place};
use std::fmt::Display;
use std::net::IpAddr;

/// The line of an event, for a device named eth0.
pub fn line(what: &What) -> String {
    match what {
        What::Arrive(packet) => packet_line(packet),
        What::Poll => "poll 1".to_owned(),
        What::Command(command) => command_line(command),
    }
}

/// The script of these events: a line for each, and one for each time that is another than that
/// before.
pub fn script<'a>(events: impl IntoIterator<Item = &'a Event>) -> String {
    let mut script = String::new();
    let mut before = 0;
    for (now, what) in events {
        if *now != before {
            script += &format!("at {now}\n");
            before = *now;
        }
        script += &line(what);
        script.push('\n');
    }
    script
}

/// An option, where it is given.
pub fn given(name: &str, value: Option<impl Display>) -> String {
    value.map_or(String::new(), |value| format!(" {name} {value}"))
}

// The `pkt` line of a packet. Of one that is not IP it has no addresses.
fn packet_line(packet: &Packet) -> String {
    let (src, dst) = (packet.src().map(groups), packet.dst().map(groups));
    let (src_port, dst_port) = packet.ports();
    format!(
        "pkt {} hash {} prio {} ip_proto {:x}{}{} src_port {src_port} dst_port {dst_port} ecn {}",
        packet.len(),
        packet.hash(),
        packet.prio(),
        packet.proto(),
        given("src_ip", src),
        given("dst_ip", dst),
        packet.ecn(),
    )
}

// An address, with all its groups if it is of IPv6.
fn groups(address: IpAddr) -> String {
    match address {
        IpAddr::V4(address) => address.to_string(),
        IpAddr::V6(address) => address
            .segments()
            .map(|group| format!("{group:x}"))
            .join(":"),
    }
}

fn command_line(command: &Command) -> String {
    match command {
        Command::QdiscAdd(place, major, kind) => {
            let qdisc = qdisc(Some(*place), *major);
            format!("tc qdisc add dev eth0{qdisc}{}", kind.words)
        }
        Command::QdiscChange(place, major, kind) => {
            let qdisc = qdisc(*place, *major);
            format!("tc qdisc change dev eth0{qdisc}{}", kind.words)
        }
        Command::QdiscDel(place, major) => {
            format!("tc qdisc del dev eth0{}", qdisc(*place, *major))
        }
        Command::ClassAdd(parent, id, quantum) => {
            let (class, quantum) = (class(Some(*parent), *id), bytes(*quantum));
            format!("tc class add dev eth0{class} drr{quantum}")
        }
        Command::ClassChange(parent, id, quantum) => {
            let (class, quantum) = (class(*parent, *id), bytes(*quantum));
            format!("tc class change dev eth0{class} drr{quantum}")
        }
        Command::ClassDel(parent, id) => format!("tc class del dev eth0{}", class(*parent, *id)),
        Command::FilterAdd(parent, filter) => filter_line(*parent, filter),
        Command::FilterDel(parent, prio) => {
            format!("tc filter del dev eth0 parent {parent:x}: prio {prio}")
        }
    }
}

/// A qdisc by its place, its handle or both.
pub fn qdisc(place: Option<Place>, major: Option<u16>) -> String {
    let place = match place {
        None => String::new(),
        Some(Place::Class(major, minor)) => format!(" parent {major:x}:{minor:x}"),
        Some(place) => format!(" {place}"),
    };
    place + &handle("handle", major)
}

fn handle(name: &str, major: Option<u16>) -> String {
    given(name, major.map(|major| format!("{major:x}:")))
}

fn class(parent: Option<u16>, (major, minor): Class) -> String {
    let parent = handle("parent", parent);
    format!("{parent} classid {major:x}:{minor:x}")
}

fn bytes(quantum: Option<u32>) -> String {
    given("quantum", quantum.map(|bytes| format!("{bytes}b")))
}

fn filter_line(parent: u16, filter: &Filter) -> String {
    let keys = [
        given("ip_proto", filter.ip_proto.map(|it| format!("{it:x}"))),
        given("src_ip", filter.src_ip.map(prefix)),
        given("dst_ip", filter.dst_ip.map(prefix)),
        given("src_port", filter.src_port),
        given("dst_port", filter.dst_port),
    ];
    format!(
        "tc filter add dev eth0 parent {parent:x}: prio {} protocol {} flower{}{}",
        filter.prio,
        filter.protocol,
        keys.concat(),
        class(None, filter.class),
    )
}

fn prefix((address, len): Prefix) -> String {
    format!("{}/{len}", groups(address))
}
