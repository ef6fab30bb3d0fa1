//! The `tc` lines of the language.

use super::line::{ClassId, Command, Fault, FqCodel, Keys, Kind, Line, Object, Place, Protocol, TbfLimit};
use super::words::Words;

type Read<T> = Result<T, Fault>;

const RATES: [(&str, u64); 11] = [
    ("", 1),
    ("bit", 1),
    ("kbit", 1_000),
    ("mbit", 1_000_000),
    ("gbit", 1_000_000_000),
    ("tbit", 1_000_000_000_000),
    ("bps", 8),
    ("kbps", 8_000),
    ("mbps", 8_000_000),
    ("gbps", 8_000_000_000),
    ("tbps", 8_000_000_000_000),
];

const SIZES: [(&str, u64); 11] = [
    ("", 1),
    ("b", 1),
    ("k", 1 << 10),
    ("kb", 1 << 10),
    ("m", 1 << 20),
    ("mb", 1 << 20),
    ("g", 1 << 30),
    ("gb", 1 << 30),
    ("kbit", 128),
    ("mbit", 128 << 10),
    ("gbit", 128 << 20),
];

const TIMES: [(&str, u64); 10] = [
    ("", 1_000),
    ("us", 1_000),
    ("usec", 1_000),
    ("usecs", 1_000),
    ("ms", 1_000_000),
    ("msec", 1_000_000),
    ("msecs", 1_000_000),
    ("s", 1_000_000_000),
    ("sec", 1_000_000_000),
    ("secs", 1_000_000_000),
];

const MOST: u64 = u32::MAX as u64;
const LONGEST: u64 = 1_000_000_000_000;

#[derive(Clone, Copy, PartialEq)]
enum Verb {
    Add,
    Change,
    Del,
}

pub fn read_tc(mut words: Words) -> Read<Line> {
    let mut word = words.needed()?;
    let counters = word == "-s";
    if counters {
        word = words.needed()?;
    }
    let object = match word {
        "qdisc" => Object::Qdisc,
        "class" => Object::Class,
        "filter" => Object::Filter,
        _ => return Err(words.unknown()),
    };
    let verb = match words.needed()? {
        "add" => Verb::Add,
        "change" if !matches!(object, Object::Filter) => Verb::Change,
        "del" | "delete" => Verb::Del,
        "show" | "list" | "ls" => return read_show(words, object, counters),
        _ => return Err(words.unknown()),
    };
    match object {
        Object::Qdisc => read_qdisc(words, verb),
        Object::Class => read_class(words, verb),
        Object::Filter => read_filter(words, verb),
    }
}

fn read_show(mut words: Words, object: Object, counters: bool) -> Read<Line> {
    let mut named = false;
    while let Some(word) = words.next()? {
        if word != "dev" {
            return Err(words.unknown());
        }
        words.once(named)?;
        words.named()?;
        named = true;
    }
    Ok(Line::Show { object, counters })
}

#[derive(Default)]
struct QdiscHead {
    named: bool,
    place: Option<Place>,
    handle: Option<u16>,
}

fn read_qdisc(mut words: Words, verb: Verb) -> Read<Line> {
    let mut head = QdiscHead::default();
    while let Some(word) = words.next()? {
        match word {
            "dev" => {
                words.once(head.named)?;
                words.named()?;
                head.named = true;
            }
            "root" => {
                words.once(head.place.is_some())?;
                head.place = Some(Place::Root);
            }
            "parent" => {
                let word = words.option(&head.place)?;
                head.place = Some(Place::Class(words.class(word)?));
            }
            "handle" => {
                let word = words.option(&head.handle)?;
                head.handle = Some(words.handle(word)?);
            }
            "pfifo" | "bfifo" | "prio" | "tbf" | "drr" | "fq_codel" if verb == Verb::Del => {
                words.ended(())?;
                return qdisc_removed(&words, &head);
            }
            "pfifo" => {
                let limit = read_limit(&mut words, |words, word| words.number(word, 0, MOST))?;
                return qdisc_made(&words, verb, &head, Kind::Pfifo { limit });
            }
            "bfifo" => {
                let limit = read_limit(&mut words, |words, word| words.united(word, &SIZES, 0, MOST))?;
                return qdisc_made(&words, verb, &head, Kind::Bfifo { limit });
            }
            "prio" => {
                let kind = read_prio(&mut words)?;
                return qdisc_made(&words, verb, &head, kind);
            }
            "tbf" => {
                let kind = read_tbf(&mut words)?;
                return qdisc_made(&words, verb, &head, kind);
            }
            "drr" => {
                words.ended(())?;
                return qdisc_made(&words, verb, &head, Kind::Drr);
            }
            "fq_codel" => {
                let kind = Kind::FqCodel(read_fq_codel(&mut words)?);
                return qdisc_made(&words, verb, &head, kind);
            }
            _ => return Err(words.unknown()),
        }
    }
    match verb {
        Verb::Del => qdisc_removed(&words, &head),
        _ => Err(words.missing()),
    }
}

fn qdisc_made(words: &Words, verb: Verb, head: &QdiscHead, kind: Kind) -> Read<Line> {
    let QdiscHead {
        named: true,
        place,
        handle,
    } = *head
    else {
        return Err(words.missing());
    };
    match (verb, place) {
        (Verb::Add, Some(place)) => Ok(Line::Tc(Command::QdiscAdd { place, handle, kind })),
        (Verb::Change, _) if place.is_some() || handle.is_some() => {
            Ok(Line::Tc(Command::QdiscChange { place, handle, kind }))
        }
        _ => Err(words.missing()),
    }
}

fn qdisc_removed(words: &Words, head: &QdiscHead) -> Read<Line> {
    let (place, handle) = (head.place, head.handle);
    if !head.named || place.is_none() && handle.is_none() {
        return Err(words.missing());
    }
    Ok(Line::Tc(Command::QdiscDel { place, handle }))
}

fn read_limit(words: &mut Words, read: impl Fn(&Words, &str) -> Read<u32>) -> Read<Option<u32>> {
    let mut limit = None;
    while let Some(word) = words.next()? {
        if word != "limit" {
            return Err(words.unknown());
        }
        let word = words.option(&limit)?;
        limit = Some(read(words, word)?);
    }
    Ok(limit)
}

/// The numbers of a priomap in the line, and the word of the first.
#[derive(Default)]
struct Priomap {
    first: usize,
    numbers: [u64; 16],
    count: usize,
}

/// A number that is not below the bands is a fault only once the line is read, as the bands may come after it.
fn read_prio(words: &mut Words) -> Read<Kind> {
    let (mut bands, mut map) = (None, None);
    let mut is_ended = false;
    while let Some(word) = words.next()? {
        match word {
            "bands" => {
                words.once(bands.is_some())?;
                let Some(word) = words.next()? else {
                    is_ended = true;
                    break;
                };
                bands = Some(words.number(word, 2, 16)?);
            }
            "priomap" => {
                words.once(map.is_some())?;
                let read = read_priomap(words)?;
                is_ended = read.count < 16;
                map = Some(read);
                if is_ended {
                    break;
                }
            }
            _ => return Err(words.unknown()),
        }
    }
    prio(words, bands.unwrap_or(3), map, is_ended)
}

/// The prio of what was read; something is missing where the line ended too early, and a priomap for two bands.
fn prio(words: &Words, bands: u64, map: Option<Priomap>, is_ended: bool) -> Read<Kind> {
    let is_missing = is_ended || map.is_none() && bands < 3;
    let mut priomap = [1, 2, 2, 2, 1, 2, 0, 0, 1, 1, 1, 1, 1, 1, 1, 1];
    if let Some(map) = map {
        let mut numbers = map.numbers[..map.count].iter();
        if let Some(place) = numbers.position(|number| *number >= bands) {
            return Err(Fault::OutOfRange(map.first + place));
        }
        priomap = map.numbers.map(|number| number as u8);
    }
    if is_missing {
        return Err(words.missing());
    }
    let bands = bands as u8;
    Ok(Kind::Prio { bands, priomap })
}

fn read_priomap(words: &mut Words) -> Read<Priomap> {
    let mut map = Priomap {
        first: words.taken + 1,
        ..Priomap::default()
    };
    while map.count < 16 {
        let Some(word) = words.next()? else {
            break;
        };
        map.numbers[map.count] = words.any_number(word)?;
        map.count += 1;
    }
    Ok(map)
}

fn read_tbf(words: &mut Words) -> Read<Kind> {
    let (mut rate, mut burst, mut limit) = (None, None, None);
    while let Some(word) = words.next()? {
        match word {
            "rate" => {
                let word = words.option(&rate)?;
                rate = Some(words.united(word, &RATES, 1, 1_000_000_000_000)?);
            }
            "burst" | "buffer" | "maxburst" => {
                let word = words.option(&burst)?;
                burst = Some(words.united(word, &SIZES, 1, MOST)?);
            }
            "limit" => {
                let word = words.option(&limit)?;
                limit = Some(TbfLimit::Bytes(words.united(word, &SIZES, 0, MOST)?));
            }
            "latency" => {
                let word = words.option(&limit)?;
                limit = Some(TbfLimit::Latency(words.united(word, &TIMES, 0, LONGEST)?));
            }
            _ => return Err(words.unknown()),
        }
    }
    match (rate, burst, limit) {
        (Some(rate), Some(burst), Some(limit)) => Ok(Kind::Tbf { rate, burst, limit }),
        _ => Err(words.missing()),
    }
}

fn read_fq_codel(words: &mut Words) -> Read<FqCodel> {
    let mut options = FqCodel::default();
    while let Some(word) = words.next()? {
        match word {
            "limit" => {
                let word = words.option(&options.limit)?;
                options.limit = Some(words.number(word, 1, MOST)?);
            }
            "flows" => {
                let word = words.option(&options.flows)?;
                options.flows = Some(words.number(word, 1, 65536)?);
            }
            "quantum" => {
                let word = words.option(&options.quantum)?;
                options.quantum = Some(words.united(word, &SIZES, 1, MOST)?);
            }
            "target" => {
                let word = words.option(&options.target)?;
                options.target = Some(words.united(word, &TIMES, 0, LONGEST)?);
            }
            "interval" => {
                let word = words.option(&options.interval)?;
                options.interval = Some(words.united(word, &TIMES, 1000, LONGEST)?);
            }
            "drop_batch" => {
                let word = words.option(&options.drop_batch)?;
                options.drop_batch = Some(words.number(word, 1, 65536)?);
            }
            "ecn" | "noecn" => {
                words.once(options.ecn.is_some())?;
                options.ecn = Some(word == "ecn");
            }
            _ => return Err(words.unknown()),
        }
    }
    Ok(options)
}

fn read_class(mut words: Words, verb: Verb) -> Read<Line> {
    let (mut named, mut parent, mut class) = (false, None, None);
    let mut quantum = None;
    while let Some(word) = words.next()? {
        match word {
            "dev" => {
                words.once(named)?;
                words.named()?;
                named = true;
            }
            "parent" => {
                let word = words.option(&parent)?;
                parent = Some(words.handle(word)?);
            }
            "classid" => {
                let word = words.option(&class)?;
                class = Some(words.class(word)?);
            }
            "drr" if verb != Verb::Del => {
                quantum = Some(read_quantum(&mut words)?);
                break;
            }
            _ => return Err(words.unknown()),
        }
    }
    let (true, Some(class)) = (named, class) else {
        return Err(words.missing());
    };
    match (verb, parent, quantum) {
        (Verb::Add, Some(parent), Some(quantum)) => Ok(Line::Tc(Command::ClassAdd { parent, class, quantum })),
        (Verb::Change, parent, Some(quantum)) => Ok(Line::Tc(Command::ClassChange { parent, class, quantum })),
        (Verb::Del, parent, None) => Ok(Line::Tc(Command::ClassDel { parent, class })),
        _ => Err(words.missing()),
    }
}

fn read_quantum(words: &mut Words) -> Read<Option<u32>> {
    let mut quantum = None;
    while let Some(word) = words.next()? {
        if word != "quantum" {
            return Err(words.unknown());
        }
        let word = words.option(&quantum)?;
        quantum = Some(words.united(word, &SIZES, 1, MOST)?);
    }
    Ok(quantum)
}

fn read_filter(mut words: Words, verb: Verb) -> Read<Line> {
    let (mut named, mut parent, mut prio, mut protocol) = (false, None, None, None);
    let mut flower = None;
    while let Some(word) = words.next()? {
        match word {
            "dev" => {
                words.once(named)?;
                words.named()?;
                named = true;
            }
            "parent" => {
                let word = words.option(&parent)?;
                parent = Some(words.handle(word)?);
            }
            "prio" | "pref" => {
                let word = words.option(&prio)?;
                prio = Some(words.number(word, 1, 0xffff)?);
            }
            "protocol" => {
                protocol = Some(match words.option(&protocol)? {
                    "ip" => Protocol::Ip,
                    "ipv6" => Protocol::Ipv6,
                    "all" => Protocol::All,
                    _ => return Err(words.unknown()),
                });
            }
            "flower" if verb == Verb::Add => {
                flower = Some(read_flower(&mut words, protocol)?);
                break;
            }
            "flower" => {
                words.ended(())?;
                break;
            }
            _ => return Err(words.unknown()),
        }
    }
    let (true, Some(parent), Some(prio)) = (named, parent, prio) else {
        return Err(words.missing());
    };
    match (verb, flower) {
        (Verb::Add, Some((keys, Some(class)))) => Ok(Line::Tc(Command::FilterAdd {
            parent,
            prio,
            protocol: protocol.unwrap_or(Protocol::All),
            keys,
            class,
        })),
        (Verb::Del, None) => Ok(Line::Tc(Command::FilterDel { parent, prio })),
        _ => Err(words.missing()),
    }
}

fn read_flower(words: &mut Words, protocol: Option<Protocol>) -> Read<(Keys, Option<ClassId>)> {
    let mut keys = Keys::default();
    let mut class = None;
    let of_protocol = match protocol {
        Some(Protocol::Ip) => Some([0; 4].into()),
        Some(Protocol::Ipv6) => Some([0; 16].into()),
        _ => None,
    };
    while let Some(word) = words.next()? {
        match word {
            "ip_proto" => {
                let word = words.option(&keys.ip_proto)?;
                keys.ip_proto = Some(words.ip_proto(word)?);
            }
            "src_ip" => {
                let word = words.option(&keys.src_ip)?;
                let wanted = of_protocol.or(keys.dst_ip.map(|prefix| prefix.address));
                keys.src_ip = Some(words.prefix(word, wanted)?);
            }
            "dst_ip" => {
                let word = words.option(&keys.dst_ip)?;
                let wanted = of_protocol.or(keys.src_ip.map(|prefix| prefix.address));
                keys.dst_ip = Some(words.prefix(word, wanted)?);
            }
            "src_port" => {
                let word = words.option(&keys.src_port)?;
                keys.src_port = Some(words.number(word, 0, 0xffff)?);
            }
            "dst_port" => {
                let word = words.option(&keys.dst_port)?;
                keys.dst_port = Some(words.number(word, 0, 0xffff)?);
            }
            "classid" | "flowid" => {
                let word = words.option(&class)?;
                class = Some(words.class(word)?);
            }
            _ => return Err(words.unknown()),
        }
    }
    Ok((keys, class))
}
