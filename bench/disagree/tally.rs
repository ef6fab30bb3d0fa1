//! What scripts held and what became of it, added up.

use super::commands::Refusal;
use super::plain::packet::Cause;
use super::player::cause_name;
use super::reached::Reached;
use std::fmt;

const CAUSES: [Cause; 6] = [
    Cause::TooLong,
    Cause::NoClass,
    Cause::OverLimit,
    Cause::Codel,
    Cause::FatFlow,
    Cause::Purged,
];

#[derive(Default)]
pub struct Tally {
    pub scripts: u64,
    pub lines: u64,
    pub commands: u64,
    pub packets: u64,
    pub polls: u64,
    pub sent: u64,
    pub reached: Reached,
    losses: [u64; 7],
    refusals: [u64; 22],
    faults: [u64; 7],
}

impl Tally {
    pub fn refuse(&mut self, refusal: Refusal) {
        self.refusals[refusal as usize] += 1;
    }

    pub fn lose(&mut self, cause: Cause) {
        self.losses[cause as usize] += 1;
    }

    pub fn fault(&mut self, kind: usize) {
        self.faults[kind] += 1;
    }
}

impl fmt::Display for Tally {
    fn fmt(&self, f: &mut fmt::Formatter) -> fmt::Result {
        writeln!(f, "{} scripts with {} lines", self.scripts, self.lines)?;
        writeln!(f, "{} commands done", self.commands)?;
        writeln!(f, "{} packets, {} polls, {} sent", self.packets, self.polls, self.sent)?;
        write!(f, "losses reported:")?;
        for cause in CAUSES {
            write!(f, " {} {}", cause_name(cause), self.losses[cause as usize])?;
        }
        write!(f, "\nrefusals by number:")?;
        for number in 10..22 {
            write!(f, " {number}: {}", self.refusals[number])?;
        }
        write!(f, "\nfaults by number:")?;
        for number in 1..7 {
            write!(f, " {number}: {}", self.faults[number])?;
        }
        write!(f, "\n{}", self.reached)
    }
}
