//! What `qtree play` does with a script, by the reader and the device of the benchmark's plain Rust, and the commands, losses
//! and texts of the files beside this one.

use super::options::Options;
use super::plain::device::{Device, Polled};
use super::plain::head::{Ecn, FlowKey, Head, one_at_a_time};
use super::plain::line::{Arrival, Fault, Line, read_line};
use super::plain::packet::{Cause, Packet, Put};
use super::tally::Tally;
use std::io::{self, Write};

/// The most bytes of a script.
const LONGEST: usize = 16 << 20;

/// What a program answered to a script.
#[derive(Clone, PartialEq, Eq)]
pub struct Answer {
    pub report: Vec<u8>,
    /// The exit status; none where the program was ended by a signal or a panic.
    pub status: Option<i32>,
}

struct Player<'a> {
    device: Device,
    seed: u32,
    packets: u32,
    at: u64,
    has_failed: bool,
    report: Vec<u8>,
    tally: &'a mut Tally,
}

pub fn play(words: &[String], script: &[u8], tally: &mut Tally) -> io::Result<Answer> {
    let options = Options::read(words).filter(|_| script.len() <= LONGEST);
    let Some(options) = options else {
        return Ok(Answer {
            report: Vec::new(),
            status: Some(2),
        });
    };
    let mut player = Player {
        device: Device::new(options.mtu, options.txqueuelen, 0),
        seed: options.seed,
        packets: 0,
        at: 0,
        has_failed: false,
        report: Vec::new(),
        tally,
    };
    for (index, line) in script.split(|byte| *byte == b'\n').enumerate() {
        player.run_line(index + 1, line)?;
    }
    Ok(Answer {
        report: player.report,
        status: Some(player.has_failed.into()),
    })
}

impl Player<'_> {
    fn run_line(&mut self, number: usize, line: &[u8]) -> io::Result<()> {
        self.tally.lines += 1;
        let read = read_line(line);
        if read.as_ref().is_ok_and(|read| !matches!(read, Line::Tc(_))) {
            self.tally.reached.words(line);
        }
        match read {
            Ok(Line::Blank) => {}
            Ok(Line::At(ns)) => {
                if ns < self.at {
                    self.tally.reached.note("time before the one before");
                }
                if ns == 1 << 62 {
                    self.tally.reached.note("time 2^62");
                }
                self.at = ns;
            }
            Ok(Line::Tc(command)) => {
                if let Err(refusal) = self.device.perform(&command, self.at) {
                    self.has_failed = true;
                    self.tally.refuse(refusal);
                    self.tally.reached.refused(&command, refusal);
                    let name = refusal.name();
                    writeln!(self.report, "line {number}: refused {} {name}", refusal as u8)?;
                } else {
                    self.tally.commands += 1;
                    self.tally.reached.done(&command, line);
                }
            }
            Ok(Line::Show { object, counters }) => self.device.show(object, counters, &mut self.report)?,
            Ok(Line::Pkt(arrival)) => self.arrive(arrival.len, &head_of(&arrival), arrival.hash),
            Ok(Line::Frame { len, head }) => {
                self.tally.reached.note(&format!("head of family {}", head.key.family));
                self.arrive(len, &head, None);
            }
            Ok(Line::Poll(polls)) => {
                for _ in 0..polls {
                    self.poll()?;
                }
            }
            Ok(Line::Reap) => {
                while let Some(lost) = self.device.reap() {
                    self.tally.lose(lost.cause);
                    let Packet { number, len, .. } = lost.packet;
                    writeln!(self.report, "lost {number} {len} {}", cause_name(lost.cause))?;
                }
            }
            Ok(Line::Totals) => self.device.totals(&mut self.report)?,
            Err(fault) => {
                self.has_failed = true;
                let (kind, name, word) = fault_parts(&fault);
                self.tally.fault(kind);
                writeln!(self.report, "line {number}: fault {kind} {name} word {word}")?;
            }
        }
        Ok(())
    }

    fn arrive(&mut self, len: u16, head: &Head, hash: Option<u32>) {
        self.packets += 1;
        self.tally.packets += 1;
        let packet = Packet {
            port: 0,
            number: self.packets.into(),
            buf: self.packets,
            len,
            key: head.key,
            hash: hash.unwrap_or_else(|| one_at_a_time(self.seed, &head.key.bytes())),
            prio: head.prio,
            ecn: head.ecn,
        };
        let put = self.device.arrive(&packet, self.at);
        assert!(!matches!(put, Put::NoMemory), "an allocation failed");
    }

    fn poll(&mut self) -> io::Result<()> {
        self.tally.polls += 1;
        let mut sent = Packet::NONE;
        match self.device.poll(self.at, &mut sent) {
            Polled::Packet => {
                self.tally.sent += 1;
                let Packet { number, len, ecn, .. } = sent;
                let mark = if ecn == Ecn::Ce { " ce" } else { "" };
                self.tally.reached.note(if ecn == Ecn::Ce { "sent ce" } else { "sent" });
                writeln!(self.report, "sent {number} {len}{mark}")
            }
            Polled::Idle => {
                self.tally.reached.note("idle");
                self.report.write_all(b"idle\n")
            }
            Polled::Later => {
                self.tally.reached.note("later");
                self.report.write_all(b"later\n")
            }
        }
    }
}

fn head_of(arrival: &Arrival) -> Head {
    Head {
        key: FlowKey {
            family: arrival.family,
            proto: arrival.proto,
            src: arrival.src,
            dst: arrival.dst,
            sport: arrival.sport,
            dport: arrival.dport,
        },
        prio: arrival.prio,
        ecn: Ecn::from_bits(arrival.ecn),
    }
}

pub fn cause_name(cause: Cause) -> &'static str {
    match cause {
        Cause::TooLong => "TooLong",
        Cause::NoClass => "NoClass",
        Cause::OverLimit => "OverLimit",
        Cause::Codel => "CoDel",
        Cause::FatFlow => "FatFlow",
        Cause::Purged => "Purged",
    }
}

/// The number, the name and the word.
fn fault_parts(fault: &Fault) -> (usize, &'static str, usize) {
    match *fault {
        Fault::UnknownWord(word) => (1, "UnknownWord", word),
        Fault::Missing(word) => (2, "Missing", word),
        Fault::BadNumber(word) => (3, "BadNumber", word),
        Fault::OutOfRange(word) => (4, "OutOfRange", word),
        Fault::Twice(word) => (5, "Twice", word),
        Fault::BadUtf8(word) => (6, "BadUtf8", word),
    }
}
