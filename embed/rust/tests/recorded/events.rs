//! Events with fields of all values that a line can say: arrivals, polls and commands of all kinds,
//! on a few handles and classes, so that
//! many are done and many refused.
use crate::chance::Chance;
use crate::commands::{Command, command};
use qtree::{Error, Packet};
use std::net::{IpAddr, Ipv4Addr, Ipv6Addr};

/// How many events there are.
pub const EVENTS: usize = 10_000;

/// What happens to a device, and when.
pub type Event = (u64, What);

/// What happens to a device.
#[derive(Clone, Debug)]
pub enum What {
    Arrive(Packet),
    Poll,
    Command(Command),
}

/// The events, whose clock goes on by up to two milliseconds at each fourth.
pub fn events(seed: u64) -> Result<Vec<Event>, Error> {
    let mut chance = Chance::new(seed);
    let mut ns = 0;
    let mut events = Vec::new();
    for _event in 0..EVENTS {
        if chance.hits(4) {
            ns += chance.below(2_000_000);
        }
        events.push((ns, what(&mut chance)?));
    }
    Ok(events)
}

// Of ten events five are arrivals, three polls and two commands.
fn what(chance: &mut Chance) -> Result<What, Error> {
    Ok(match chance.below(10) {
        0..=4 => What::Arrive(packet(chance)?),
        5..=7 => What::Poll,
        _ => What::Command(command(chance)),
    })
}

// A packet, mostly of a length that the device takes. It is not IP and has no addresses, or it is
// of either version.
fn packet(chance: &mut Chance) -> Result<Packet, Error> {
    let most = if chance.hits(16) { 65_535 } else { 1_514 };
    let len = chance.short(most) + 1;
    let (sport, dport) = (chance.short(1 << 16), chance.short(1 << 16));
    let bits = [0, 32, 128][chance.below(3) as usize];
    let (src, dst) = (address(chance, bits), address(chance, bits));
    let proto = proto(chance);
    let (port, number, buf) = (chance.word(64), chance.wide(), chance.word(1 << 32));
    let (hash, prio) = (chance.word(1 << 32), chance.byte(16));
    let mut builder = Packet::builder(len).ports(sport, dport).proto(proto);
    if bits > 0 {
        builder = builder.addresses(src, dst);
    }
    let builder = builder.number(port, number).buf(buf).hash(hash).prio(prio);
    Ok(builder.ecn(chance.byte(4)).build()?)
}

/// The number of a protocol above IP: TCP, UDP or any.
pub fn proto(chance: &mut Chance) -> u8 {
    match chance.below(3) {
        0 => 6,
        1 => 17,
        _ => chance.byte(256),
    }
}

/// An address of so many bits: 32 or 128.
pub fn address(chance: &mut Chance, bits: u8) -> IpAddr {
    let (high, low) = (chance.wide(), chance.wide());
    if bits == 128 {
        let address = (u128::from(high) << 64) | u128::from(low);
        Ipv6Addr::from_bits(address).into()
    } else {
        Ipv4Addr::from_bits((high >> 32) as u32).into()
    }
}
