//! Times the crates of this repository beside plain Rust and the kernel's own code. `bench/run` builds and runs it.

mod devices;
mod inputs;
mod kernel;
mod lean;
mod line_rows;
mod plain;
mod play;
mod ports;
mod rattle;
mod rows;
mod table;
mod timing;

use rows::Row;
use std::env;
use std::error::Error;
use std::process::ExitCode;

const USAGE: &str = "usage: q_bench table|times devices|parts ROUNDS [WORD] | instructions devices|parts [WORD]
       | one ROW rattle|plain|kernel PASSES | rounds ROW ROUNDS | ports PROGRAM ROUNDS | scripts FOLDER
       | play QTREE FOLDER ROUNDS | plain-play <SCRIPT";

fn main() -> ExitCode {
    let args: Vec<String> = env::args().skip(1).collect();
    let args: Vec<&str> = args.iter().map(String::as_str).collect();
    match start(&args) {
        Ok(()) => ExitCode::SUCCESS,
        Err(message) => {
            eprintln!("q_bench: {message}");
            ExitCode::FAILURE
        }
    }
}

fn start(args: &[&str]) -> Result<(), Box<dyn Error>> {
    match args {
        ["table", of, rounds, rest @ ..] => table::print(rows_of(of)?, rounds.parse()?, true, word(rest)?),
        ["times", of, rounds, rest @ ..] => table::print(rows_of(of)?, rounds.parse()?, false, word(rest)?),
        ["instructions", of, rest @ ..] => table::print(rows_of(of)?, 0, true, word(rest)?),
        ["one", name, side, passes] => run_one(name, side, passes.parse()?),
        ["rounds", name, rounds] => print_rounds(name, rounds.parse()?),
        ["ports", program, rounds] => Ok(ports::print(program, rounds.parse()?)?),
        ["scripts", folder] => Ok(play::write_scripts(folder.as_ref())?),
        ["play", qtree, folder, rounds] => Ok(play::print_play(qtree, folder.as_ref(), rounds.parse()?)?),
        ["plain-play"] => Ok(lean::player::play()?),
        _ => Err(USAGE.into()),
    }
}

fn rows_of(name: &str) -> Result<Vec<Row>, Box<dyn Error>> {
    match name {
        "devices" => Ok(devices::all()),
        "parts" => Ok(rows::parts()),
        _ => Err(USAGE.into()),
    }
}

fn word<'a>(rest: &[&'a str]) -> Result<&'a str, Box<dyn Error>> {
    match rest {
        [] => Ok(""),
        [word] => Ok(word),
        _ => Err(USAGE.into()),
    }
}

fn row_named(name: &str) -> Result<Row, Box<dyn Error>> {
    let mut rows = devices::all().into_iter().chain(rows::parts());
    Ok(rows.find(|row| row.name == name).ok_or(USAGE)?)
}

/// Prints the times of a row, for the program whose code is placed elsewhere: a line for each side.
fn print_rounds(name: &str, rounds: usize) -> Result<(), Box<dyn Error>> {
    for side in timing::measured(&row_named(name)?, rounds)? {
        let times: Vec<String> = side.iter().map(f64::to_string).collect();
        println!("{}", times.join(" "));
    }
    Ok(())
}

/// Runs one side of one row, for valgrind and other tools that watch a process.
fn run_one(name: &str, side: &str, passes: u32) -> Result<(), Box<dyn Error>> {
    let sides = (row_named(name)?.sides)();
    let work = match side {
        "rattle" => sides.rattle,
        "plain" => sides.plain,
        "kernel" => sides.kernel.ok_or("the kernel's code is not at hand")?,
        _ => return Err(USAGE.into()),
    };
    println!("{:x}", work(passes));
    Ok(())
}
