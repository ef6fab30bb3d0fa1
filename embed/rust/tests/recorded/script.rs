//! Plays of scripts, as a recorder writes them.
use qtree::{Device, Error, Fate, Packet, Polled, Show};
use std::collections::BTreeSet;
use std::net::IpAddr;

/// What a play answered.
#[derive(Debug, Default)]
pub struct Played {
    /// The lines that `qtree play` writes.
    pub report: Vec<String>,
    /// Which events did not happen, since their commands were refused.
    pub refused: BTreeSet<usize>,
}

/// Plays a script of the lines that a recorder writes.
pub fn play(device: &mut Device, script: &str) -> Result<Played, Error> {
    let mut played = Played::default();
    let (mut now, mut arrived, mut event) = (0, 0, 0);
    for (i, line) in script.lines().enumerate() {
        let words: Vec<&str> = line.split(' ').collect();
        match words[0] {
            "at" => {
                now = words[1].parse().expect("a time");
                continue;
            }
            "tc" => match device.command(line, now) {
                Err(Error::Refused(why)) => {
                    played.report.push(format!("line {}: {why}", i + 1));
                    played.refused.insert(event);
                }
                done => done?,
            },
            "poll" => played.report.push(answer_of(device.poll(now)?)),
            _ => {
                arrived += 1;
                let packet = packet(&words, arrived);
                let fate = device.arrive(&packet, now)?;
                played.report.extend(loss_of(&packet, fate));
            }
        }
        event += 1;
    }
    Ok(played)
}

/// What a poll gave. The number of a packet is that of its arrival.
pub fn answer_of(polled: Polled) -> String {
    match polled {
        Polled::Packet(packet) => {
            let mark = if packet.ecn() == 3 { " ce" } else { "" };
            format!("sent {} {}{mark}", packet.number(), packet.len())
        }
        Polled::Idle => "idle".to_owned(),
        Polled::Later => "later".to_owned(),
    }
}

/// What is told of an arrival, if its packet is lost.
pub fn loss_of(packet: &Packet, fate: Fate) -> Option<String> {
    match fate {
        Fate::Kept => None,
        Fate::Lost(cause) => Some(format!("lost {} {} {cause}", packet.number(), packet.len())),
    }
}

/// What is asked at the end: all losses, all counters, and all that is in the tree.
pub fn end(device: &mut Device) -> Result<Vec<String>, Error> {
    let mut report: Vec<String> = device
        .losses()
        .filter_map(|loss| loss_of(&loss.packet, Fate::Lost(loss.cause)))
        .collect();
    report.push(format!("{:?}", device.totals()));
    for show in [Show::Counters, Show::Classes, Show::Filters] {
        report.push(device.show(show)?);
    }
    Ok(report)
}

/// The packet of a `pkt` line, with this number.
pub fn packet(words: &[&str], number: u64) -> Packet {
    let given = |name: &str| {
        let at = words.iter().position(|it| *it == name)?;
        Some(words[at + 1])
    };
    let number_of = |name: &str| given(name).expect(name).parse::<u32>().expect(name);
    let address_of = |name: &str| given(name).map(|it| it.parse::<IpAddr>().expect(name));
    let proto = given("ip_proto").expect("a protocol");
    let mut builder = Packet::builder(number_of("pkt") as u16)
        .number(0, number)
        .hash(number_of("hash"))
        .prio(number_of("prio") as u8)
        .ecn(number_of("ecn") as u8)
        .proto(u8::from_str_radix(proto, 16).expect("a protocol"))
        .ports(number_of("src_port") as u16, number_of("dst_port") as u16);
    if let (Some(src), Some(dst)) = (address_of("src_ip"), address_of("dst_ip")) {
        builder = builder.addresses(src, dst);
    }
    builder.build().expect("a packet of a script")
}
