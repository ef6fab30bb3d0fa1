//! Times and instruction counts of the rows.

use crate::rows::{Row, Sides, Work};
use std::env;
use std::ffi::OsStr;
use std::hint::black_box;
use std::io;
use std::process::Command;
use std::sync::OnceLock;
use std::time::Instant;

/// The least and the median of some figures, and half the range in which their middle half lies, as a part of the median.
pub struct Figure {
    pub least: f64,
    pub median: f64,
    pub spread: f64,
}

impl Figure {
    pub fn of(mut figures: Vec<f64>) -> Figure {
        figures.sort_by(f64::total_cmp);
        let at = |part: f64| figures[((figures.len() - 1) as f64 * part).round() as usize];
        let median = at(0.5);
        Figure {
            least: at(0.0),
            median,
            spread: (at(0.75) - at(0.25)) / 2.0 / median,
        }
    }
}

pub struct Times {
    /// Nanoseconds for one operation.
    pub rattle: Figure,
    pub plain: Figure,
    pub kernel: Option<Figure>,
    /// Of the times of Rattle and of another side in one round, by which slower intervals of the machine cancel out.
    pub to_plain: Figure,
    pub to_kernel: Option<Figure>,
}

/// Times all sides of a row in turns. Where the environment names another program of this kind, whose code is 16 bytes further,
/// each side's times are those of the program in which it was faster: where its jumps fall is the linker's luck.
pub fn times(row: &Row, rounds: usize) -> Result<Times, String> {
    let mut sides = measured(row, rounds)?;
    if let Some(program) = env::var_os("QTREE_BENCH_ELSEWHERE") {
        for (side, other) in sides.iter_mut().zip(measured_by(&program, &row.name, rounds)?) {
            if Figure::of(other.clone()).median < Figure::of(side.clone()).median {
                *side = other;
            }
        }
    }
    Ok(Times {
        rattle: Figure::of(sides[0].clone()),
        plain: Figure::of(sides[1].clone()),
        kernel: sides.get(2).cloned().map(Figure::of),
        to_plain: ratio(&sides[0], &sides[1]),
        to_kernel: sides.get(2).map(|kernel| ratio(&sides[0], kernel)),
    })
}

/// Checks that both sides answer the same, and gives the times of each side, round by round.
pub fn measured(row: &Row, rounds: usize) -> Result<Vec<Vec<f64>>, String> {
    let sides = (row.sides)();
    let (sum, same) = ((sides.rattle)(row.passes), (sides.plain)(row.passes));
    if sum == 0 || sum != same {
        return Err(format!("{}: checksums {sum:x} and {same:x}", row.name));
    }
    let Sides { rattle, plain, kernel } = &sides;
    if let Some(kernel) = kernel {
        // It takes its buffers at the first call.
        kernel(1);
    }
    let works: Vec<&Work> = [rattle, plain].into_iter().chain(kernel).collect();
    let mut spans = vec![Spans::default(); works.len()];
    for round in 0..rounds {
        // Each side goes first in as many rounds as the others.
        for turn in 0..works.len() {
            let side = (round + turn) % works.len();
            spans[side].once.push(span(works[side], 0));
            spans[side].whole.push(span(works[side], row.passes));
        }
    }
    Ok(spans.iter().map(|spans| spans.times(row)).collect())
}

/// The same, as another program measures them: a line for each side.
fn measured_by(program: &OsStr, name: &str, rounds: usize) -> Result<Vec<Vec<f64>>, String> {
    let ran = Command::new(program).args(["rounds", name, &rounds.to_string()]).output();
    let output = ran.map_err(|error| format!("{}: {error}", program.display()))?;
    if !output.status.success() {
        return Err(format!("{}: {}", program.display(), String::from_utf8_lossy(&output.stderr)));
    }
    let text = String::from_utf8_lossy(&output.stdout);
    let sides = text.lines().map(|line| line.split(' ').map(str::parse).collect());
    sides.collect::<Result<_, _>>().map_err(|error| format!("{}: {error}", program.display()))
}

/// The ratio of our times to those of another side, round by round.
pub fn ratio(ours: &[f64], theirs: &[f64]) -> Figure {
    Figure::of(ours.iter().zip(theirs).map(|(ours, theirs)| ours / theirs).collect())
}

/// How long a side took, in nanoseconds, round by round: with no pass, and as a whole.
#[derive(Clone, Default)]
struct Spans {
    once: Vec<f64>,
    whole: Vec<f64>,
}

impl Spans {
    /// The time of one operation in each round; the least that is done once is taken off.
    fn times(&self, row: &Row) -> Vec<f64> {
        let once = self.once.iter().copied().fold(f64::INFINITY, f64::min);
        let ops = (row.ops * u64::from(row.passes)) as f64;
        self.whole.iter().map(|whole| (whole - once) / ops).collect()
    }
}

fn span(work: &Work, passes: u32) -> f64 {
    let start = Instant::now();
    black_box(work(black_box(passes)));
    start.elapsed().as_nanos() as f64
}

/// The operations that are counted, or somewhat more.
const COUNTED: u64 = 1 << 14;

/// Instructions for one operation on each side. What is done once is left out, as the difference of two runs.
pub fn instructions(row: &Row, side: &str) -> io::Result<f64> {
    let few = (COUNTED.div_ceil(row.ops) as u32).min(row.passes / 2);
    let once = collected(&row.name, side, few)?;
    let twice = collected(&row.name, side, 2 * few)?;
    Ok((twice - once) as f64 / (row.ops * u64::from(few)) as f64)
}

/// The instructions of a run of this program, by the processor's own counter where perf may read it, else by valgrind.
fn collected(name: &str, side: &str, passes: u32) -> io::Result<u64> {
    static BY_PERF: OnceLock<bool> = OnceLock::new();
    let myself = env::current_exe()?;
    let passes = passes.to_string();
    let words = [
        myself.as_os_str(),
        "one".as_ref(),
        name.as_ref(),
        side.as_ref(),
        passes.as_ref(),
    ];
    if *BY_PERF.get_or_init(|| by_perf(&["true".as_ref()]).is_some()) {
        return by_perf(&words).ok_or_else(|| io::Error::other("perf stat counts no longer"));
    }
    by_valgrind(&words)
}

fn by_perf(words: &[&OsStr]) -> Option<u64> {
    let mut perf = Command::new("perf");
    perf.args(["stat", "-x", ",", "-e", "instructions:u", "--"]).args(words);
    let output = perf.output().ok()?;
    let report = String::from_utf8_lossy(&output.stderr);
    let counted = report.lines().find(|line| line.contains("instructions"))?;
    counted.split(',').next()?.parse().ok()
}

fn by_valgrind(words: &[&OsStr]) -> io::Result<u64> {
    let mut valgrind = Command::new("valgrind");
    valgrind
        .args(["--tool=callgrind", "--callgrind-out-file=/dev/null"])
        .args(words);
    let output = valgrind.output()?;
    let report = String::from_utf8_lossy(&output.stderr);
    report
        .lines()
        .find(|line| line.contains("Collected"))
        .and_then(|line| line.rsplit(' ').next())
        .and_then(|count| count.parse().ok())
        .ok_or_else(|| io::Error::other(format!("no count in valgrind's report: {report}")))
}
