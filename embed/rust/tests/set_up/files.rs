//! Files of tc lines that a new device does, each line drawn by chance.
use crate::chance::Chance;
use qtree::{Device, Error, Settings};

/// A file of the lines, of so many that are drawn, that a new device does.
pub fn file(chance: &mut Chance, drawn: u64) -> Result<String, Error> {
    let mut device = Device::open(Settings::default())?;
    let mut text = String::new();
    // Only few files name a number that a device chooses.
    let names_chosen = chance.hits(5);
    for _ in 0..drawn {
        let line = line(chance, names_chosen);
        if is_done(&mut device, &line)? {
            text += &line;
            text.push('\n');
        }
    }
    Ok(text)
}

// A comment stays in the file.
fn is_done(device: &mut Device, line: &str) -> Result<bool, Error> {
    match device.command(line, 0) {
        Ok(()) | Err(Error::NoCommand) => Ok(true),
        Err(Error::Refused(_)) => Ok(false),
        Err(error) => Err(error),
    }
}

fn line(chance: &mut Chance, names_chosen: bool) -> String {
    match chance.below(20) {
        0 => "# a comment".into(),
        1 => {
            let major = major(chance, names_chosen);
            let kind = kind(chance);
            format!("tc qdisc change dev eth0 handle {major:x}: {kind}")
        }
        2 => {
            let major = major(chance, names_chosen);
            format!("tc qdisc del dev eth0 handle {major:x}:")
        }
        3 => {
            let (major, minor) = (major(chance, names_chosen), chance.upto(4));
            format!("tc class del dev eth0 classid {major:x}:{minor}")
        }
        4..=8 => class_add(chance, names_chosen),
        9..=12 => filter_add(chance, names_chosen),
        _ => qdisc_add(chance, names_chosen),
    }
}

fn qdisc_add(chance: &mut Chance, names_chosen: bool) -> String {
    let place = if chance.hits(4) {
        "root".into()
    } else {
        let (major, minor) = (major(chance, names_chosen), chance.upto(4));
        format!("parent {major:x}:{minor}")
    };
    let kind = kind(chance);
    if chance.hits(3) {
        return format!("tc qdisc add dev eth0 {place} {kind}");
    }
    let major = major(chance, names_chosen);
    format!("tc qdisc add dev eth0 {place} handle {major:x}: {kind}")
}

fn class_add(chance: &mut Chance, names_chosen: bool) -> String {
    let (major, minor) = (major(chance, names_chosen), chance.upto(4));
    let line = format!("tc class add dev eth0 parent {major:x}: classid {major:x}:{minor} drr");
    if chance.hits(2) {
        return line;
    }
    let quantum = chance.upto(3) * 700;
    format!("{line} quantum {quantum}")
}

fn filter_add(chance: &mut Chance, names_chosen: bool) -> String {
    let (major, minor) = (major(chance, names_chosen), chance.upto(4));
    let (prio, proto) = (chance.upto(3), chance.upto(3));
    let (protocol, key) = if chance.hits(2) {
        (String::new(), String::new())
    } else {
        ("protocol ip ".into(), format!("ip_proto {proto} "))
    };
    format!(
        "tc filter add dev eth0 parent {major:x}: {protocol}prio {prio} flower {key}classid {major:x}:{minor}"
    )
}

fn major(chance: &mut Chance, names_chosen: bool) -> u64 {
    if names_chosen && chance.hits(3) {
        return chance.below(3) + 0x8001;
    }
    if chance.hits(2) {
        return 1;
    }
    chance.upto(4)
}

fn kind(chance: &mut Chance) -> String {
    match chance.below(12) {
        0 => "pfifo".into(),
        1 => format!("pfifo limit {}", chance.upto(3)),
        2 => format!("bfifo limit {}", chance.upto(3) * 1000),
        3 => "bfifo".into(),
        4 | 5 => prio(chance),
        6 | 7 => {
            let (rate, burst) = (chance.upto(3), chance.upto(4) * 700);
            let limit = chance.upto(2) * 9000;
            format!("tbf rate {rate}mbit burst {burst} limit {limit}")
        }
        8..=10 => "drr".into(),
        _ => {
            let (flows, limit) = (chance.upto(2), chance.upto(2) * 100);
            format!("fq_codel flows {flows} limit {limit}")
        }
    }
}

fn prio(chance: &mut Chance) -> String {
    let bands = chance.upto(3) + 1;
    let (first, second) = (chance.below(bands), chance.below(bands));
    format!("prio bands {bands} priomap {first} {second} 0 0 0 0 0 0 0 0 0 0 0 0 0 {first}")
}

/// The same file with some lines left out, some that say something else of the same, and some that are new, as far as a new device does them.
pub fn edited(chance: &mut Chance, before: &str) -> Result<String, Error> {
    let mut device = Device::open(Settings::default())?;
    let mut text = String::new();
    let names_chosen = before.contains(" 800");
    for old in before.lines() {
        let mut lines = match chance.below(16) {
            0 => vec![],
            1..=3 => vec![said_otherwise(chance, old)],
            _ => vec![old.into()],
        };
        if chance.hits(16) {
            lines.push(line(chance, names_chosen));
        }
        for line in lines {
            if is_done(&mut device, &line)? {
                text += &line;
                text.push('\n');
            }
        }
    }
    Ok(text)
}

fn said_otherwise(chance: &mut Chance, old: &str) -> String {
    if old.starts_with("tc qdisc add") {
        let kinds = ["pfifo", "bfifo", "prio", "tbf", "drr", "fq_codel"];
        if let Some(at) = kinds
            .iter()
            .filter_map(|it| old.find(&format!(" {it}")))
            .min()
        {
            let (head, word) = (&old[..at], old[at + 1..].split(' ').next());
            for _ in 0..200 {
                let kind = kind(chance);
                if kind.split(' ').next() == word {
                    return format!("{head} {kind}");
                }
            }
        }
        return old.into();
    }
    match old.rfind(':') {
        Some(at) if old.starts_with("tc filter add") => {
            format!("{}:{}", &old[..at], chance.upto(4))
        }
        _ if old.starts_with("tc class add") => {
            let head = old.split(" quantum").next().unwrap_or(old);
            format!("{head} quantum {}", chance.upto(3) * 1000)
        }
        _ => old.into(),
    }
}
