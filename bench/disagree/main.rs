//! Plays scripts by the program and by plain Rust, and compares what both answer. `tools/disagree` builds and runs it.

mod change;
mod commands;
mod compared;
mod find;
mod known;
mod options;
mod places;
mod player;
mod program;
mod random;
mod reached;
mod removal;
mod requests;
mod scripts;
mod session;
mod setup;
mod shorten;
mod show;
mod tally;
mod values;

/// The benchmark's plain Rust, but for its bucket, which rounds as the kernel's does.
#[path = "../src/plain"]
#[allow(dead_code, reason = "the benchmark asks for more")]
mod plain {
    pub mod active;
    #[path = "../../disagree/bucket.rs"]
    pub mod bucket;
    pub mod codel;
    pub mod device;
    pub mod fifo;
    pub mod filter;
    pub mod flows;
    pub mod gap;
    pub mod head;
    pub mod line;
    pub mod line_tc;
    pub mod packet;
    mod place;
    pub mod pool;
    pub mod row;
    pub mod setup;
    pub mod signals;
    pub mod tree;
    mod winners;
    pub mod words;
}

use compared::Compared;
use known::Case;
use std::env;
use std::error::Error;
use std::io::{self, Read, Write};
use std::panic;
use std::path::Path;
use std::process::{self, ExitCode};
use tally::Tally;

const USAGE: &str = "usage: disagree TOP FOLDER PROGRAM SEED FIRST SCRIPTS | play [OPTION..] <SCRIPT";

/// Differences after which no more scripts are played.
const MOST_DIFFERENCES: u64 = 20;

fn main() -> ExitCode {
    let words: Vec<String> = env::args().skip(1).collect();
    match start(&words) {
        Ok(0) => ExitCode::SUCCESS,
        Ok(_) => ExitCode::from(1),
        Err(message) => {
            eprintln!("disagree: {message}");
            ExitCode::from(2)
        }
    }
}

/// The number of differences.
fn start(words: &[String]) -> Result<u64, Box<dyn Error>> {
    match words {
        [play, options @ ..] if play == "play" => play_alone(options),
        [top, folder, program, seed, first, count] => {
            let compared = Compared::new(program.into(), folder.into());
            compare(compared, top.as_ref(), seed.parse()?, first.parse()?, count.parse()?)
        }
        _ => Err(USAGE.into()),
    }
}

/// Plays standard input in plain Rust as `qtree play` does, and ends with the status of that.
fn play_alone(options: &[String]) -> Result<u64, Box<dyn Error>> {
    let mut script = Vec::new();
    io::stdin().read_to_end(&mut script)?;
    let answer = player::play(options, &script, &mut Tally::default())?;
    io::stdout().write_all(&answer.report)?;
    process::exit(answer.status.unwrap_or(2))
}

/// The random scripts from this number on; before the first comes what is always the same.
fn compare(mut compared: Compared, top: &Path, seed: u64, first: u64, count: u64) -> Result<u64, Box<dyn Error>> {
    panic::set_hook(Box::new(|_| {}));
    let known = known::read_all(top)?;
    if first == 0 {
        compare_fixed(&mut compared, &known)?;
    }
    let before = compared.differences;
    compared.tally = Tally::default();
    for number in first..first.saturating_add(count) {
        let script = scripts::script(seed, number, &known);
        compared.play(&format!("{seed}-{number}"), &script)?;
        if compared.differences - before >= MOST_DIFFERENCES {
            println!("{MOST_DIFFERENCES} differences are enough");
            break;
        }
    }
    println!("{}{} differences", compared.tally, compared.differences - before);
    Ok(compared.differences)
}

/// The scripts whose reports are known, and the lines with each word in each place.
fn compare_fixed(compared: &mut Compared, known: &[Case]) -> io::Result<()> {
    for case in known {
        compared.play_known(case)?;
    }
    println!("{} known scripts, {} differences", known.len(), compared.differences);
    let before = compared.differences;
    compared.tally = Tally::default();
    for (number, script) in places::scripts().enumerate() {
        compared.play(&format!("places-{number}"), &script)?;
    }
    let (scripts, lines) = (compared.tally.scripts, compared.tally.lines);
    let differences = compared.differences - before;
    println!("{scripts} scripts with {lines} lines, each word in each place, {differences} differences");
    Ok(())
}
