//! The rows over ports: `crates/q_ports_bench`, a program, beside the same in plain Rust. Neither is counted in instructions,
//! since senders and the drainer wait for one another.

use crate::lean::ports;
use crate::table;
use crate::timing::{self, Figure, Times};
use std::io;
use std::process::Command;

/// The rows, in the order in which both sides give them.
const ROWS: [&str; ports::ROWS] = [
    "ports: an offer",
    "ports: offer_many of 64, for each",
    "ports: a turn of 64, for each",
    "ports: its calls on a device alone",
    "ports: a turn that finds nothing",
    "ports: an offer into a ring of 65536",
    "ports: the same, 4 senders at once",
    "ports: drive, 1 sender, for each",
    "ports: drive, 4 senders, for each",
    "ports: drive, 16 senders, for each",
    "ports: drive, 64 senders, for each",
];

/// Times both sides in turns, and prints the rows.
pub fn print(program: &str, rounds: usize) -> io::Result<()> {
    let (mut rattle, mut plain) = (Vec::new(), Vec::new());
    for round in 0..rounds {
        // Each goes first in half of the rounds.
        for turn in [round, round + 1] {
            if turn % 2 == 0 {
                rattle.push(run(program)?);
            } else {
                plain.push(ports::timed().ok_or_else(|| io::Error::other("the plain ports failed"))?);
            }
        }
    }
    for (at, name) in ROWS.iter().enumerate() {
        let of = |side: &[[f64; ports::ROWS]]| -> Vec<f64> { side.iter().map(|times| times[at]).collect() };
        let (ours, theirs) = (of(&rattle), of(&plain));
        let times = Times {
            to_plain: timing::ratio(&ours, &theirs),
            rattle: Figure::of(ours),
            plain: Figure::of(theirs),
            kernel: None,
            to_kernel: None,
        };
        println!("{}{}", table::head(name), table::timed(&times));
    }
    Ok(())
}

/// One round of the program.
fn run(program: &str) -> io::Result<[f64; ports::ROWS]> {
    let output = Command::new(program).arg("times").output()?;
    let text = String::from_utf8_lossy(&output.stdout);
    let figures: Vec<f64> = text.lines().filter_map(each).collect();
    match <[f64; ports::ROWS]>::try_from(figures) {
        Ok(times) if times.iter().all(|time| *time > 0.0) => Ok(times),
        _ => Err(io::Error::other(format!("{program}: {text}"))),
    }
}

/// The nanoseconds of one packet, of a line with those of so many.
fn each(line: &str) -> Option<f64> {
    let (span, packets) = line.split_once(' ')?;
    Some(span.parse::<f64>().ok()? / packets.parse::<f64>().ok()?)
}
