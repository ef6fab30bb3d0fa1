//! What of the language the scripts reached, beside all that there is: commands done and refused, words, units and answers.

use super::commands::Refusal;
use super::plain::line::{Command, Kind};
use super::scripts::words_of;
use std::collections::BTreeMap;
use std::fmt;

const KINDS: [&str; 6] = ["pfifo", "bfifo", "prio", "tbf", "drr", "fq_codel"];

/// Each verb with the refusals that it may be given, as in "Order of refusals" of docs/LANGUAGE.md.
const REFUSALS: &[(&str, &[u8])] = &[
    ("qdisc add", &[10, 11, 13, 14, 15, 18, 19]),
    ("qdisc change", &[12, 16, 17, 19, 20]),
    ("qdisc del", &[12]),
    ("class add", &[10, 11, 12, 14, 17, 18, 19]),
    ("class change", &[10, 12, 14, 15, 17]),
    ("class del", &[10, 12, 14, 15, 16, 17]),
    ("filter add", &[12, 14, 15, 19]),
    ("filter del", &[12, 14, 21]),
];

/// Words of commands that were done, and of the other lines.
const WORDS: &str = "-s add all at bands buffer burst change class classid del delete dev drop_batch drr dst_ip dst_port ecn \
    filter flower flowid flows frame handle hash icmp icmpv6 interval ip ip_proto ipv6 latency limit list ls maxburst noecn \
    parent pkt poll pref prio priomap protocol qdisc quantum rate reap root sctp show src_ip src_port target tc tcp totals udp";

/// The options whose value has a unit, and the units, in lower case; "" is none.
const UNITS: &[(&str, &[&str], &[&str])] = &[
    (
        "rate",
        &["rate"],
        &[
            "", "bit", "bps", "gbit", "gbps", "kbit", "kbps", "mbit", "mbps", "tbit", "tbps",
        ],
    ),
    (
        "size",
        &["burst", "buffer", "maxburst", "quantum"],
        &["", "b", "g", "gb", "gbit", "k", "kb", "kbit", "m", "mb", "mbit"],
    ),
    (
        "time",
        &["latency", "target", "interval"],
        &["", "ms", "msec", "msecs", "s", "sec", "secs", "us", "usec", "usecs"],
    ),
];

/// What is seen beside commands and words.
const OTHERS: &[&str] = &[
    "time before the one before",
    "time 2^62",
    "head of family 0",
    "head of family 4",
    "head of family 6",
    "sent",
    "sent ce",
    "idle",
    "later",
];

#[derive(Default)]
pub struct Reached(BTreeMap<String, u64>);

impl Reached {
    pub fn note(&mut self, what: &str) {
        match self.0.get_mut(what) {
            Some(count) => *count += 1,
            None => _ = self.0.insert(what.to_string(), 1),
        }
    }

    /// A command that was done, by this line.
    pub fn done(&mut self, command: &Command, line: &[u8]) {
        let (verb, kind) = parts(command);
        self.note(&format!("{verb}{kind}"));
        self.words(line);
    }

    pub fn refused(&mut self, command: &Command, refusal: Refusal) {
        self.note(&format!("{} refused {}", parts(command).0, refusal as u8));
    }

    /// The words of a line that was read.
    pub fn words(&mut self, line: &[u8]) {
        let words: Vec<String> = words_of(line)
            .iter()
            .map(|word| String::from_utf8_lossy(word).into())
            .collect();
        for word in &words {
            if WORDS.split(' ').any(|known| known == word) {
                self.note(&format!("word {word}"));
            }
        }
        for pair in words.windows(2) {
            if let Some((kind, ..)) = UNITS.iter().find(|(_, options, _)| options.contains(&pair[0].as_str())) {
                let unit = pair[1].trim_start_matches(|digit: char| digit.is_ascii_digit() || digit == '.');
                self.note(&format!("{kind} in {}", unit.to_ascii_lowercase()));
            }
        }
    }

    fn count(&self, what: &str) -> u64 {
        self.0.get(what).copied().unwrap_or(0)
    }
}

/// The verb, and behind a blank the kind of qdisc.
fn parts(command: &Command) -> (&'static str, &'static str) {
    let name = |kind: &Kind| match kind {
        Kind::Pfifo { .. } => " pfifo",
        Kind::Bfifo { .. } => " bfifo",
        Kind::Prio { .. } => " prio",
        Kind::Tbf { .. } => " tbf",
        Kind::Drr => " drr",
        Kind::FqCodel(_) => " fq_codel",
    };
    match command {
        Command::QdiscAdd { kind, .. } => ("qdisc add", name(kind)),
        Command::QdiscChange { kind, .. } => ("qdisc change", name(kind)),
        Command::QdiscDel { .. } => ("qdisc del", ""),
        Command::ClassAdd { .. } => ("class add", ""),
        Command::ClassChange { .. } => ("class change", ""),
        Command::ClassDel { .. } => ("class del", ""),
        Command::FilterAdd { .. } => ("filter add", ""),
        Command::FilterDel { .. } => ("filter del", ""),
    }
}

/// All that there is to reach.
fn everything() -> Vec<String> {
    let mut all = Vec::new();
    for (verb, refusals) in REFUSALS {
        match *verb {
            "qdisc add" | "qdisc change" => all.extend(KINDS.map(|kind| format!("{verb} {kind}"))),
            _ => all.push(verb.to_string()),
        }
        all.extend(refusals.iter().map(|number| format!("{verb} refused {number}")));
    }
    all.extend(WORDS.split(' ').map(|word| format!("word {word}")));
    for (kind, _, units) in UNITS {
        all.extend(units.iter().map(|unit| format!("{kind} in {unit}")));
    }
    all.extend(OTHERS.iter().map(|other| other.to_string()));
    all
}

impl fmt::Display for Reached {
    fn fmt(&self, f: &mut fmt::Formatter) -> fmt::Result {
        let all = everything();
        let never: Vec<&str> = all
            .iter()
            .filter(|what| self.count(what) == 0)
            .map(String::as_str)
            .collect();
        let rare = all
            .iter()
            .filter(|what| self.count(what) > 0)
            .min_by_key(|what| self.count(what));
        write!(
            f,
            "reached {} of {} parts of the language",
            all.len() - never.len(),
            all.len()
        )?;
        if let Some(rare) = rare {
            write!(f, ", `{rare}` the least often: {}", self.count(rare))?;
        }
        if !never.is_empty() {
            write!(f, "; never: {}", never.join(", "))?;
        }
        writeln!(f)
    }
}
