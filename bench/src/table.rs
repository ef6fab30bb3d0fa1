//! The table: each row's times and instructions, by Rattle, by plain Rust and by the kernel's own code.

use crate::rows::Row;
use crate::timing::{self, Figure, Times};
use std::error::Error;
use std::io;

/// The most that a row may cost, as a part of what plain Rust costs; past it the row is marked.
const MOST: f64 = 1.1;

/// Prints the rows with this word in their names, timed in so many rounds; with no round they are counted alone.
pub fn print(rows: Vec<Row>, rounds: usize, counts: bool, word: &str) -> Result<(), Box<dyn Error>> {
    let mut rows = rows.iter().filter(|row| row.name.contains(word)).peekable();
    if rows.peek().is_some() {
        print_heads(rounds > 0, counts);
    }
    for row in rows {
        print_row(row, rounds, counts)?;
    }
    Ok(())
}

fn print_heads(has_times: bool, has_counts: bool) {
    let (mut above, mut line) = (head(""), head("row"));
    if has_times {
        above += &format!(
            " {:>16} {:>16} {:>16} {:>23} ",
            "Rattle, ns", "plain Rust, ns", "kernel, ns", "Rattle's time"
        );
        for _ in 0..3 {
            line += "    least  median";
        }
        line += &format!(" {:>11} {:>11} ", "to plain", "to kernel");
    }
    if has_counts {
        above += &format!(" {:>26}", "instructions");
        line += &format!(" {:>8} {:>8} {:>8}", "Rattle", "plain", "kernel");
    }
    println!("{above}\n{line}");
}

fn print_row(row: &Row, rounds: usize, counts: bool) -> Result<(), Box<dyn Error>> {
    let has_kernel = (row.sides)().kernel.is_some();
    let mut line = head(&row.name);
    if rounds > 0 {
        line += &timed(&timing::times(row, rounds)?);
    }
    if counts {
        line += &count(row, "rattle")?;
        line += &count(row, "plain")?;
        line += &if has_kernel {
            count(row, "kernel")?
        } else {
            format!(" {:>8}", "-")
        };
    }
    println!("{line}");
    Ok(())
}

pub fn head(name: &str) -> String {
    format!("{name:43}")
}

pub fn timed(times: &Times) -> String {
    let mark = if times.to_plain.median <= MOST { ' ' } else { '!' };
    let figures = [Some(&times.rattle), Some(&times.plain), times.kernel.as_ref()];
    let figures: String = figures.into_iter().map(figure).collect();
    let to_plain = ratio(&times.to_plain);
    let to_kernel = times.to_kernel.as_ref().map_or("-".to_string(), ratio);
    format!("{figures} {to_plain:>11}{mark}{to_kernel:>11} ")
}

fn ratio(ratio: &Figure) -> String {
    format!("{:.2}±{:.0}%", ratio.median, 100.0 * ratio.spread)
}

fn figure(figure: Option<&Figure>) -> String {
    match figure {
        Some(figure) => format!(" {:8.2} {:7.2}", figure.least, figure.median),
        None => format!(" {:>16}", "-"),
    }
}

fn count(row: &Row, side: &str) -> io::Result<String> {
    Ok(format!(" {:8.1}", timing::instructions(row, side)?))
}
