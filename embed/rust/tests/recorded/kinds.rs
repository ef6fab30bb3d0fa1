//! The kinds of qdiscs with options of all values, each as a line says it.
use crate::chance::Chance;
use crate::lines::given;

/// A kind with its options.
#[derive(Clone, Debug)]
pub struct Kind {
    /// The words of a line, with a space before each.
    pub words: String,
    /// Those of a qdisc that can be changed to it.
    pub before: String,
}

/// One of the six kinds.
pub fn kind(chance: &mut Chance) -> Kind {
    match chance.below(10) {
        0 => of("pfifo", given("limit", chance.some_word(100))),
        1 => of("bfifo", given("limit", bytes(chance.some_word(1 << 32)))),
        2 | 3 => prio(chance),
        4 | 5 => tbf(chance),
        6..=8 => of("drr", String::new()),
        _ => fq_codel(chance),
    }
}

// A kind that any qdisc of the same name can be changed to.
fn of(name: &str, options: String) -> Kind {
    Kind {
        words: format!(" {name}{options}"),
        before: format!(" {name}"),
    }
}

fn prio(chance: &mut Chance) -> Kind {
    let bands = chance.byte(15) + 2;
    let mut options = format!(" bands {bands} priomap");
    for _prio in 0..16 {
        options += &format!(" {}", chance.byte(bands.into()));
    }
    of("prio", options)
}

fn tbf(chance: &mut Chance) -> Kind {
    let rate = if chance.hits(4) {
        chance.wide() % 1_000_000_000_000
    } else {
        chance.below(1_000_000)
    };
    let (rate, burst) = (rate.max(1), chance.word(20_000) + 1);
    let limit = if chance.hits(2) {
        format!("limit {}b", chance.word(1 << 32))
    } else {
        format!("latency {}", time(chance, 0))
    };
    Kind {
        words: format!(" tbf rate {rate}bit burst {burst}b {limit}"),
        before: " tbf rate 1mbit burst 1b limit 9kb".to_owned(),
    }
}

// The number of flows stays as it was made.
fn fq_codel(chance: &mut Chance) -> Kind {
    let limit = given("limit", some_count(chance, 1_000));
    let most = if chance.hits(16) { 65_536 } else { 64 };
    let flows = given("flows", some_count(chance, most));
    let quantum = given("quantum", bytes(some_count(chance, 5_000)));
    let target = given("target", some_time(chance, 0));
    let interval = given("interval", some_time(chance, 1_000));
    let ecn = match chance.below(3) {
        0 => "",
        1 => " noecn",
        _ => " ecn",
    };
    let batch = given("drop_batch", some_count(chance, 65_536));
    Kind {
        words: format!(" fq_codel{limit}{flows}{quantum}{target}{interval}{ecn}{batch}"),
        before: format!(" fq_codel{flows}"),
    }
}

// A time of at least so many nanoseconds and at most 1000 s, mostly of less than 10 ms.
fn time(chance: &mut Chance, least: u64) -> String {
    let most = if chance.hits(4) {
        1_000_000_000
    } else {
        10_000
    };
    let us = chance.below(most + 1);
    let below = if us < most { chance.below(1_000) } else { 0 };
    let ns = (us * 1_000 + below).max(least);
    format!("{}.{:03}us", ns / 1_000, ns % 1_000)
}

fn some_time(chance: &mut Chance, least: u64) -> Option<String> {
    (!chance.hits(2)).then(|| time(chance, least))
}

// A number from 1 to this one, or none.
fn some_count(chance: &mut Chance, most: u64) -> Option<u32> {
    Some(chance.some_word(most)? + 1)
}

fn bytes(count: Option<u32>) -> Option<String> {
    count.map(|count| format!("{count}b"))
}
