//! `qtree play` over long scripts, beside a player in plain Rust.

use crate::inputs::{self, SLOT, Xorshift};
use crate::timing::{self, Figure};
use std::env;
use std::ffi::OsStr;
use std::fs::{self, File};
use std::io::{self, BufWriter, Write};
use std::path::Path;
use std::process::{Command, Stdio};
use std::time::Instant;

/// The most memory that `qtree play` is to take beside the script's length, in bytes.
const MEMORY: u64 = 64 << 20;

/// The least number of lines a second that `qtree play` is to do.
const SPEED: f64 = 3_000_000.0;

struct Kind {
    name: &'static str,
    /// As many as 16 MiB have room for, which is the longest script, and 1,000,000 at most.
    lines: u64,
    write: fn(&mut Script) -> io::Result<()>,
}

/// Each script sets a tree up, and then packets arrive, polls are made, and some lines name a new time.
const SCRIPTS: [Kind; 3] = [
    Kind {
        name: "pfifo",
        lines: 1_000_000,
        write: into_pfifo,
    },
    Kind {
        name: "fq_codel below a tbf",
        lines: 1_000_000,
        write: into_fq_codel,
    },
    Kind {
        name: "frames",
        lines: 250_000,
        write: frames,
    },
];

fn into_pfifo(script: &mut Script) -> io::Result<()> {
    script.line("tc qdisc add dev eth0 root handle 1: pfifo limit 1000")?;
    script.rest(1_000_000, |random| format!("pkt {}", 60 + random.below(1454)))
}

/// A byte takes whole nanoseconds, so that a bucket that rounds to them gives the same answers.
fn into_fq_codel(script: &mut Script) -> io::Result<()> {
    script.line("tc qdisc add dev eth0 root handle 1: tbf rate 800mbit burst 15140 limit 1mb")?;
    script.line("tc qdisc add dev eth0 parent 1:1 handle 10: fq_codel limit 1000 flows 1024")?;
    script.rest(200_000, |random| {
        format!("pkt {} hash {}", 60 + random.below(1454), random.below(200))
    })
}

fn frames(script: &mut Script) -> io::Result<()> {
    script.line("tc qdisc add dev eth0 root handle 1: pfifo limit 1000")?;
    let heads = inputs::heads(1 << 14);
    script.rest(1_000_000, move |random| {
        let at = random.below(1 << 14) as usize * SLOT;
        let head = &heads[at..at + SLOT];
        let mut line = format!("frame {} ", 60 + random.below(1454));
        for byte in &head[..head[SLOT - 1].into()] {
            line += &format!("{byte:02x}");
        }
        line
    })
}

struct Script {
    output: BufWriter<File>,
    /// The lines that are still to be written.
    left: u64,
}

impl Script {
    fn line(&mut self, line: &str) -> io::Result<()> {
        self.left -= 1;
        writeln!(self.output, "{line}")
    }

    /// Of 20 lines one names a new time, up to so many nanoseconds later, ten are packets, and nine are polls.
    fn rest(&mut self, later: u64, mut packet: impl FnMut(&mut Xorshift) -> String) -> io::Result<()> {
        let mut random = Xorshift::new();
        let mut time = 0;
        while self.left > 0 {
            match random.below(20) {
                0 => {
                    time += random.below(later);
                    self.line(&format!("at {time}"))?;
                }
                1..=10 => {
                    let packet = packet(&mut random);
                    self.line(&packet)?;
                }
                11 => self.line("poll 2")?,
                _ => self.line("poll")?,
            }
        }
        self.output.flush()
    }
}

/// Writes the scripts into a folder, each under its place among them.
pub fn write_scripts(folder: &Path) -> io::Result<()> {
    for (number, kind) in SCRIPTS.iter().enumerate() {
        let file = File::create(folder.join(format!("script{number}")))?;
        (kind.write)(&mut Script {
            output: BufWriter::new(file),
            left: kind.lines,
        })?;
    }
    Ok(())
}

struct Run {
    seconds: f64,
    /// The most memory at one time, in bytes.
    memory: u64,
}

/// Checks that both players write the same, times them in turns, and prints lines a second and memory for each script.
///
/// This process stays small, since what it has counts as its children's until they run a program of their own.
pub fn print_play(qtree: &str, folder: &Path, rounds: usize) -> io::Result<()> {
    println!(
        "{:30} {:>20} {:>20} {:>14}  {:>26}",
        "qtree play, million", "Rattle", "plain Rust", "", "peak memory beside script"
    );
    println!(
        "{:30} {:>20} {:>20} {:>14}  {:>13} {:>12}",
        "lines a second, over", "most   median", "most   median", "ratio of times", "Rattle", "plain, MB"
    );
    let mut is_slow = false;
    for (number, kind) in SCRIPTS.iter().enumerate() {
        let script = folder.join(format!("script{number}"));
        let is_met = print_script(kind, qtree.as_ref(), &script, rounds)?;
        is_slow |= number == 0 && !is_met;
    }
    if is_slow {
        return Err(io::Error::other(
            "qtree play is slower or larger over a pfifo than is wanted",
        ));
    }
    Ok(())
}

/// Prints a script's row; whether the speed and the memory are those that are wanted over a pfifo.
fn print_script(kind: &Kind, qtree: &OsStr, script: &Path, rounds: usize) -> io::Result<bool> {
    let myself = env::current_exe()?;
    let (mut rattle, mut plain) = (Vec::new(), Vec::new());
    for round in 0..rounds {
        // Each goes first in half of the rounds.
        for turn in [round, round + 1] {
            if turn % 2 == 0 {
                rattle.push(run(qtree, "play", script)?);
            } else {
                plain.push(run(myself.as_ref(), "plain-play", script)?);
            }
        }
    }
    let length = fs::metadata(script)?.len();
    let memory = |runs: &[Run]| runs.iter().map(|run| run.memory).max().unwrap_or(0);
    let speed = |seconds: f64| kind.lines as f64 / seconds / 1e6;
    let all = |runs: &[Run]| -> Vec<f64> { runs.iter().map(|run| run.seconds).collect() };
    let ratio = timing::ratio(&all(&rattle), &all(&plain));
    let (ours, theirs) = (Figure::of(all(&rattle)), Figure::of(all(&plain)));
    let beside = |runs: &[Run]| (memory(runs) as f64 - length as f64) / 1e6;
    println!(
        "{:30} {:12.2} {:7.2} {:12.2} {:7.2} {:8.2} ±{:2.0}%  {:12.1} {:12.1}",
        kind.name,
        speed(ours.least),
        speed(ours.median),
        speed(theirs.least),
        speed(theirs.median),
        ratio.median,
        100.0 * ratio.spread,
        beside(&rattle),
        beside(&plain),
    );
    Ok(speed(ours.median) * 1e6 >= SPEED && memory(&rattle) <= length + MEMORY)
}

/// Runs a player, with the script for its standard input.
fn run(program: &OsStr, word: &str, script: &Path) -> io::Result<Run> {
    let mut command = Command::new(program);
    command.arg(word).stdin(File::open(script)?).stdout(Stdio::null());
    let start = Instant::now();
    let child = command.spawn()?;
    let mut status = 0;
    let mut usage = [0; 18];
    // SAFETY: the child is this process's and is waited for nowhere else, and `struct rusage` of 64-bit Linux has 18 longs.
    let waited = unsafe { wait4(child.id() as i32, &mut status, 0, &mut usage) };
    let seconds = start.elapsed().as_secs_f64();
    if waited < 0 || status != 0 {
        return Err(io::Error::other("a player failed"));
    }
    // After two times of two longs each comes `ru_maxrss`, in kilobytes.
    let memory = usage[4] as u64 * 1024;
    Ok(Run { seconds, memory })
}

unsafe extern "C" {
    fn wait4(pid: i32, status: &mut i32, options: i32, usage: &mut [i64; 18]) -> i32;
}
