//! A row of the table, which is one workload, in Rattle and in plain Rust; and the rows over the parts of a device.

use crate::plain::work::{self, FlowLoad};
use crate::{inputs, line_rows, rattle};
use std::rc::Rc;

/// A workload, run so many times over; answers its checksum.
pub type Work = Box<dyn Fn(u32) -> u64>;

pub struct Row {
    pub name: String,
    /// Operations of one pass.
    pub ops: u64,
    /// Passes of one round.
    pub passes: u32,
    /// Makes the inputs, which are the same for all sides.
    pub sides: Box<dyn Fn() -> Sides>,
}

pub struct Sides {
    pub rattle: Work,
    pub plain: Work,
    /// The kernel's own code, where it does the same and is at hand.
    pub kernel: Option<Work>,
}

impl Sides {
    /// Two sides that share their inputs.
    pub fn of<T: 'static>(
        inputs: T,
        rattle: impl Fn(&T, u32) -> u64 + 'static,
        plain: impl Fn(&T, u32) -> u64 + 'static,
    ) -> Sides {
        let inputs = Rc::new(inputs);
        let same = Rc::clone(&inputs);
        Sides {
            rattle: Box::new(move |passes| rattle(&inputs, passes)),
            plain: Box::new(move |passes| plain(&same, passes)),
            kernel: None,
        }
    }
}

/// CoDel's interval, in nanoseconds.
pub const INTERVAL: u64 = 100_000_000;

/// The takes of a round by CoDel.
pub const TAKES: usize = 40_000;

pub fn parts() -> Vec<Row> {
    let mut rows = vec![read_head(), hash()];
    rows.extend([1, 1000, 100_000].map(fifo));
    rows.push(codel("Codel::take, no drops", 100, || inputs::even_moments(TAKES)));
    rows.push(codel("Codel::take, one drop each", 1000, || {
        inputs::drop_moments(TAKES, INTERVAL)
    }));
    rows.push(gap("gap, counts 1 to 64", 1, 2000));
    rows.push(gap("gap, 64 counts at 2^31", 1 << 31, 2000));
    rows.push(spend("Bucket::spend, 1 mbit", 1_000_000, 45));
    rows.push(spend("Bucket::spend, 100 gbit", 100_000_000_000, 45));
    rows.push(spend("Bucket::spend, 100 gbit, never short", 100_000_000_000, 150));
    rows.extend([2, 64, 1000].map(turn));
    for count in [1, 64, 1024, 65536] {
        rows.push(flows(count, "put and take", 1 << 20, 1, true));
        rows.push(flows(count, "put", 1 << 20, 1, false));
        rows.push(flows(count, "put at limit", FULL, 1, false));
        rows.push(flows(count, "put at limit by 64", FULL, 64, false));
    }
    rows.extend(line_rows::all());
    rows
}

fn read_head() -> Row {
    Row {
        name: "read_head".to_string(),
        ops: 8192,
        passes: 100,
        sides: Box::new(|| {
            let table = inputs::heads(8192);
            Sides::of(
                table,
                |table, passes| rattle::read_head(table, passes),
                |table, passes| work::read_head(table, passes),
            )
        }),
    }
}

fn hash() -> Row {
    Row {
        name: "OneAtATime::hash".to_string(),
        ops: 512,
        passes: 300,
        sides: Box::new(|| {
            let table = inputs::heads(512);
            Sides::of(
                table,
                |table, passes| rattle::hash(table, passes),
                |table, passes| work::hash(table, passes),
            )
        }),
    }
}

fn fifo(queued: u32) -> Row {
    Row {
        name: format!("Fifo put and take, {queued} queued"),
        ops: 4096,
        passes: 200,
        sides: Box::new(move || {
            let lens = inputs::lens(4096);
            Sides::of(
                lens,
                move |lens, passes| rattle::fifo(queued, lens, passes),
                move |lens, passes| work::fifo(queued, lens, passes),
            )
        }),
    }
}

fn codel(name: &str, queued: u32, moments: fn() -> Vec<u64>) -> Row {
    Row {
        name: name.to_string(),
        ops: 1000,
        passes: TAKES as u32 / 1000,
        sides: Box::new(move || {
            let first = |passes: u32| ..passes as usize * 1000;
            let lens = vec![1514; 1000];
            Sides::of(
                (lens, moments()),
                move |(lens, moments), passes| rattle::codel(queued, lens, &moments[first(passes)]),
                move |(lens, moments), passes| work::codel(queued, lens, &moments[first(passes)]),
            )
        }),
    }
}

fn gap(name: &str, first: u32, passes: u32) -> Row {
    Row {
        name: name.to_string(),
        ops: 64,
        passes,
        sides: Box::new(move || {
            Sides::of(
                first,
                |first, passes| rattle::gap(INTERVAL, *first, 64, passes),
                |first, passes| work::gap(INTERVAL, *first, 64, passes),
            )
        }),
    }
}

/// A bucket of five packets, to which the rate brings so many hundredths of what the packets would take.
fn spend(name: &str, rate: u64, brought: u64) -> Row {
    let burst = 7570;
    Row {
        name: name.to_string(),
        ops: 1 << 17,
        passes: 10,
        sides: Box::new(move || {
            Sides::of(
                inputs::spends(rate, burst, brought, 1 << 17),
                move |spends, passes| rattle::spend(rate, burst, spends, passes),
                move |spends, passes| work::spend(rate, burst, spends, passes),
            )
        }),
    }
}

fn turn(classes: u16) -> Row {
    Row {
        name: format!("Active::turn, {classes} active"),
        ops: 1 << 17,
        passes: 10,
        sides: Box::new(move || {
            Sides::of(
                inputs::lens(1 << 17),
                move |lens, passes| rattle::turn(classes, 1514, lens, passes),
                move |lens, passes| work::turn(classes, 1514, lens, passes),
            )
        }),
    }
}

/// The packets that an fq_codel holds before the work begins: at the limit, where that is as many.
const FULL: u32 = 10_240;

fn flows(count: u32, name: &str, limit: u32, drop_batch: u32, takes: bool) -> Row {
    let load = FlowLoad {
        flows: count,
        limit,
        drop_batch,
        queued: FULL,
        takes,
    };
    Row {
        name: format!("FqCodel {name}, {count} flows"),
        ops: 1 << 15,
        passes: 20,
        sides: Box::new(move || {
            Sides::of(
                inputs::hashes(1 << 15),
                move |hashes, passes| rattle::flows(&load, hashes, passes),
                move |hashes, passes| work::flows(&load, hashes, passes),
            )
        }),
    }
}
