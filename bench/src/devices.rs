//! The rows over a device: an arrival and a poll of packets that were made before, for trees of every kind.
//! `crates/q_bench/src/trees.rt` has each tree as commands, and plain Rust reads the lines of tc in this file.

use crate::inputs::{self, FIRST_PORT, Lines, PACKETS};
use crate::kernel;
use crate::lean::work;
use crate::rattle;
use crate::rows::{INTERVAL, Row, Sides, TAKES};
use std::rc::Rc;

/// The disciplines of a tree, by the numbers that they have in `crates/q_bench` and in `bench/kernel.c`.
#[derive(Clone, Copy)]
pub enum Shape {
    Pfifo = 0,
    Prio = 1,
    Tbf = 2,
    DrrOfPfifos = 3,
    FqCodel = 4,
    DrrOfFqCodels = 5,
    Deep = 6,
    Sched = 7,
    SchedOf16 = 8,
    PrioOf16 = 9,
}

#[derive(Clone, Copy)]
pub struct Tree {
    pub shape: Shape,
    /// Of each fq_codel.
    pub flows: u32,
    pub drop_batch: u32,
    /// The packets that wait before the work begins, and then at each arrival.
    pub queued: u32,
    /// Whether the packets are of random flows, and not of each flow in turn.
    pub random: bool,
    /// Whether plain Rust keeps the tournament tree of an fq_codel only near its limit: it then does less than a device of Rattle, whose
    /// tree has the fat flow at its top after each put and take.
    pub lazy: bool,
}

impl Tree {
    /// The packets that arrive, with marks where `ecn` says so. Where eight fq_codels share them they have 64 flows.
    fn plan(&self, ecn: bool) -> inputs::Plan {
        let flows = match self.shape {
            Shape::DrrOfFqCodels => 64,
            _ => self.flows,
        };
        match self.shape {
            Shape::Sched => inputs::pipes(1),
            Shape::SchedOf16 => inputs::pipes(16),
            _ if self.random => inputs::random_plan(flows),
            _ => inputs::plan(flows, ecn),
        }
    }

    /// The packets that fit each fq_codel: Linux's default, or so many that all that are queued at first do.
    pub fn limit(&self) -> u32 {
        if self.queued <= 10_240 { 10_240 } else { 200_000 }
    }
}

/// The nanoseconds from one packet to the next, at which CoDel drops nothing.
const STEP: u32 = 100;

/// The same where a rate is to let every packet pass.
const SLOW_STEP: u32 = 1000;

/// The same where every packet waits for too long, and CoDel is at each poll due to mark.
const LATE_STEP: u32 = INTERVAL as u32;

/// The passes with that step: the kernel's clock for CoDel goes round after 4398 seconds.
const LATE_PASSES: u32 = 2;

pub fn all() -> Vec<Row> {
    let mut rows = vec![harness()];
    rows.extend([0, 1000, 100_000, 900_000].map(|queued| {
        let name = format!("root pfifo, {queued} queued");
        pairs(&name, tree(Shape::Pfifo, queued), STEP)
    }));
    rows.extend([
        pairs("prio of 3 pfifos", tree(Shape::Prio, 1000), STEP),
        pairs("prio of 16 pfifos, the last band", tree(Shape::PrioOf16, 1000), STEP),
        pairs("tbf that never waits", tree(Shape::Tbf, 1000), SLOW_STEP),
        pairs("drr of 8 pfifos, filters", tree(Shape::DrrOfPfifos, 1000), STEP),
        pairs("drr of 8 fq_codels, filters", tree(Shape::DrrOfFqCodels, 1000), STEP),
    ]);
    for queued in [0, 10_000] {
        rows.extend([1, 64, 1024, 65536].map(|flows| {
            let name = format!("fq_codel, {flows} flows, {queued} queued");
            let tree = Tree {
                flows,
                ..tree(Shape::FqCodel, queued)
            };
            pairs(&name, tree, STEP)
        }));
    }
    for queued in [0, 10_000] {
        let name = format!("fq_codel, 1024 flows, {queued} queued, lazy");
        let tree = Tree {
            lazy: true,
            ..tree(Shape::FqCodel, queued)
        };
        rows.push(pairs(&name, tree, STEP));
    }
    for (flows, queued) in [(1024, 10_000), (65536, 100_000)] {
        let name = format!("fq_codel, {flows} random flows, {queued} queued");
        let tree = Tree {
            flows,
            random: true,
            ..tree(Shape::FqCodel, queued)
        };
        rows.push(pairs(&name, tree, STEP));
    }
    rows.extend(lossy());
    rows.extend([
        pairs("path of 8 qdiscs", tree(Shape::Deep, 1000), STEP),
        pairs("tree of rte_sched, 1 pipe", tree(Shape::Sched, 1000), SLOW_STEP),
        pairs("tree of rte_sched, 16 pipes", tree(Shape::SchedOf16, 1000), SLOW_STEP),
    ]);
    rows
}

/// A tree whose fq_codels have 1024 flows.
fn tree(shape: Shape, queued: u32) -> Tree {
    Tree {
        shape,
        flows: 1024,
        drop_batch: 64,
        queued,
        random: false,
        lazy: false,
    }
}

/// The rows in which packets are dropped or marked.
fn lossy() -> Vec<Row> {
    let one = Tree {
        flows: 1,
        ..tree(Shape::FqCodel, 1000)
    };
    let full = |drop_batch| Tree {
        drop_batch,
        ..tree(Shape::FqCodel, 10_240)
    };
    let due = || inputs::drop_waits(TAKES, INTERVAL);
    let even = || vec![STEP; 50 * TURNS];
    vec![
        losses("CoDel, one drop each", one, TAKES, due),
        pairs_of("CoDel, one mark each", one, LATE_STEP, LATE_PASSES, true),
        losses("fq_codel at its limit, drop_batch 1", full(1), 50 * TURNS, even),
        losses("fq_codel at its limit, drop_batch 64", full(64), 50 * TURNS, even),
    ]
}

/// The polls of one pass of [`losses`].
const TURNS: usize = 1000;

fn pairs(name: &str, tree: Tree, step: u32) -> Row {
    pairs_of(name, tree, step, 50, false)
}

/// An arrival and a poll; with `ecn` of packets that can be marked.
fn pairs_of(name: &str, tree: Tree, step: u32, passes: u32, ecn: bool) -> Row {
    Row {
        name: name.to_string(),
        ops: tree.plan(ecn).hashes.len() as u64,
        passes,
        sides: Box::new(move || {
            let plan = Rc::new(tree.plan(ecn));
            let lines = Lines::of(&lines(&tree, ecn));
            let (for_rattle, for_plain) = (Rc::clone(&plan), Rc::clone(&plan));
            Sides {
                rattle: Box::new(move |passes| rattle::pairs(&tree, &for_rattle, step, passes)),
                plain: Box::new(move |passes| work::pairs(&lines, &for_plain, tree.queued, tree.lazy, step, passes)),
                kernel: kernel::pairs(tree, plan, step),
            }
        }),
    }
}

/// For each poll two arrivals before it, and the reaping of what is lost.
fn losses(name: &str, tree: Tree, polls: usize, waits: fn() -> Vec<u32>) -> Row {
    Row {
        name: name.to_string(),
        ops: TURNS as u64,
        passes: (polls / TURNS) as u32,
        sides: Box::new(move || {
            let inputs = Rc::new((tree.plan(false), waits()));
            let lines = Lines::of(&lines(&tree, false));
            let (for_rattle, for_plain) = (Rc::clone(&inputs), Rc::clone(&inputs));
            let first = |passes: u32| ..passes as usize * TURNS;
            Sides {
                rattle: Box::new(move |passes| {
                    let (plan, waits) = &*for_rattle;
                    rattle::losses(&tree, plan, &waits[first(passes)])
                }),
                plain: Box::new(move |passes| {
                    let (plan, waits) = &*for_plain;
                    work::losses(&lines, plan, tree.queued, &waits[first(passes)])
                }),
                kernel: kernel::losses(tree, inputs, TURNS),
            }
        }),
    }
}

/// The loop of [`pairs`] without a device.
fn harness() -> Row {
    Row {
        name: "the harness alone".to_string(),
        ops: PACKETS.into(),
        passes: 200,
        sides: Box::new(|| {
            let plan = Rc::new(inputs::plan(1, false));
            let same = Rc::clone(&plan);
            let other = Rc::clone(&plan);
            Sides {
                rattle: Box::new(move |passes| rattle::harness(&plan, STEP, passes)),
                plain: Box::new(move |passes| work::harness(&same, STEP, passes)),
                kernel: kernel::harness(other),
            }
        }),
    }
}

/// The lines that set the tree up.
fn lines(tree: &Tree, ecn: bool) -> Vec<String> {
    match tree.shape {
        Shape::Pfifo => root("pfifo limit 1000000"),
        Shape::Prio => root("prio bands 3 priomap 1 2 2 2 1 2 0 0 1 1 1 1 1 1 1 1"),
        Shape::Tbf => root("tbf rate 34gbit burst 1gb limit 1gb"),
        Shape::DrrOfPfifos => drr(),
        Shape::FqCodel => root(&fq_codel(tree, ecn)),
        Shape::DrrOfFqCodels => {
            let mut lines = drr();
            lines.extend((1..=8).map(|class| {
                let leaf = fq_codel(tree, ecn);
                format!("tc qdisc add dev eth0 parent 1:{class} handle 1{class}: {leaf}")
            }));
            lines
        }
        Shape::Deep => deep(),
        Shape::Sched => sched(1),
        Shape::SchedOf16 => sched(16),
        Shape::PrioOf16 => root("prio bands 16 priomap 15 15 15 15 15 15 15 15 15 15 15 15 15 15 15 15"),
    }
}

fn root(kind: &str) -> Vec<String> {
    vec![format!("tc qdisc add dev eth0 root handle 1: {kind}")]
}

fn fq_codel(tree: &Tree, ecn: bool) -> String {
    let ecn = if ecn { "ecn" } else { "noecn" };
    format!(
        "fq_codel limit {} flows {} {ecn} drop_batch {}",
        tree.limit(),
        tree.flows,
        tree.drop_batch
    )
}

/// A drr of eight classes, with a filter for each by its port.
fn drr() -> Vec<String> {
    let mut lines = root("drr");
    lines.extend((1..=8).flat_map(|minor| class(1, minor, &format!("dst_port {}", FIRST_PORT + minor - 1))));
    lines
}

/// Seven prios, each in the first band of the one above, to which all packets go.
fn deep() -> Vec<String> {
    let prio = "prio bands 3 priomap 0 0 0 0 0 0 0 0 0 0 0 0 0 0 0 0";
    let mut lines = root(prio);
    lines.extend((1..=6).map(|major| format!("tc qdisc add dev eth0 parent {major}:1 handle {}: {prio}", major + 1)));
    lines
}

/// The tree of DPDK's rte_sched, with so many pipes: a tbf for the port, a drr of pipes, and for each pipe a tbf, a prio of four traffic
/// classes and, in the last of them, a drr of four queues.
fn sched(pipes: u16) -> Vec<String> {
    let tbf = "tbf rate 34gbit burst 1gb limit 1gb";
    let prio = "prio bands 4 priomap 0 1 2 3 3 3 3 3 3 3 3 3 3 3 3 3";
    let mut lines = root(tbf);
    lines.push("tc qdisc add dev eth0 parent 1:1 handle 2: drr".to_string());
    for pipe in 1..=pipes {
        let (shaper, bands, last) = (3 * pipe + 13, 3 * pipe + 14, 3 * pipe + 15);
        lines.extend(class(2, pipe, &format!("dst_port {}", FIRST_PORT + pipe - 1)));
        lines.push(format!("tc qdisc add dev eth0 parent 2:{pipe:x} handle {shaper:x}: {tbf}"));
        lines.push(format!("tc qdisc add dev eth0 parent {shaper:x}:1 handle {bands:x}: {prio}"));
        lines.push(format!("tc qdisc add dev eth0 parent {bands:x}:4 handle {last:x}: drr"));
        lines.extend((1..=4).flat_map(|queue| class(last, queue, &format!("src_port {}", 999 + queue))));
    }
    lines
}

/// A class of a drr, with a filter for its packets.
fn class(major: u16, minor: u16, port: &str) -> [String; 2] {
    [
        format!("tc class add dev eth0 parent {major:x}: classid {major:x}:{minor:x} drr quantum 1514"),
        format!(
            "tc filter add dev eth0 parent {major:x}: prio {minor} protocol ip flower ip_proto udp {port} \
             classid {major:x}:{minor:x}"
        ),
    ]
}
