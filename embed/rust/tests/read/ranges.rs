//! Qdiscs with each number at the ends of its range.
//! What they say is what the grammar gives: q_worked_examples has the same lines, with their answers
//! computed from it.
use crate::recorded::{CLASSES, NOTHING, expect};
use qtree::Error;

#[test]
fn fifos() -> Result<(), Error> {
    expect(
        NOTHING,
        "tc qdisc add dev e root ",
        "tc qdisc add dev eth0 root ",
        &[
            ("pfifo limit 0", "pfifo limit 0"),
            ("pfifo limit 4294967295", "pfifo limit 4294967295"),
            ("bfifo limit 0", "bfifo limit 0b"),
            ("bfifo limit 4294967295", "bfifo limit 4294967295b"),
        ],
    )
}

#[test]
fn prios() -> Result<(), Error> {
    expect(
        NOTHING,
        "tc qdisc add dev e root prio ",
        "tc qdisc add dev eth0 root prio ",
        &[
            (
                "bands 2 priomap 0 0 0 0 0 0 0 0 0 0 0 0 0 0 0 0",
                "bands 2 priomap 0 0 0 0 0 0 0 0 0 0 0 0 0 0 0 0",
            ),
            (
                "bands 16",
                "bands 16 priomap 1 2 2 2 1 2 0 0 1 1 1 1 1 1 1 1",
            ),
        ],
    )
}

#[test]
fn tbfs() -> Result<(), Error> {
    expect(
        NOTHING,
        "tc qdisc add dev e root tbf ",
        "tc qdisc add dev eth0 root tbf ",
        &[
            ("burst 1 limit 0 rate 1", "rate 1bit burst 1b limit 0b"),
            (
                "burst 1 limit 0 rate 1000000000000",
                "rate 1000000000000bit burst 1b limit 0b",
            ),
            ("rate 1 limit 0 burst 1", "rate 1bit burst 1b limit 0b"),
            (
                "rate 1 limit 0 burst 4294967295",
                "rate 1bit burst 4294967295b limit 0b",
            ),
            ("rate 1 burst 1 limit 0", "rate 1bit burst 1b limit 0b"),
            (
                "rate 1 burst 1 limit 4294967295",
                "rate 1bit burst 1b limit 4294967295b",
            ),
        ],
    )
}

#[test]
fn latencies() -> Result<(), Error> {
    expect(
        NOTHING,
        "tc qdisc add dev e root tbf ",
        "tc qdisc add dev eth0 root tbf ",
        &[
            (
                "rate 1 burst 1 latency 0",
                "rate 1bit burst 1b latency 0.000us",
            ),
            (
                "rate 1 burst 1 latency 1000s",
                "rate 1bit burst 1b latency 1000000000.000us",
            ),
        ],
    )
}

#[test]
fn limits_and_flows_of_an_fq_codel() -> Result<(), Error> {
    expect(
        NOTHING,
        "tc qdisc add dev e root fq_codel ",
        "tc qdisc add dev eth0 root fq_codel ",
        &[
            ("limit 1", "limit 1"),
            ("limit 4294967295", "limit 4294967295"),
            ("flows 1", "flows 1"),
            ("flows 65536", "flows 65536"),
        ],
    )
}

#[test]
fn quanta_and_batches_of_an_fq_codel() -> Result<(), Error> {
    expect(
        NOTHING,
        "tc qdisc add dev e root fq_codel ",
        "tc qdisc add dev eth0 root fq_codel ",
        &[
            ("quantum 1", "quantum 1b"),
            ("quantum 4294967295", "quantum 4294967295b"),
            ("drop_batch 1", "drop_batch 1"),
            ("drop_batch 65536", "drop_batch 65536"),
        ],
    )
}

#[test]
fn times_of_an_fq_codel() -> Result<(), Error> {
    expect(
        NOTHING,
        "tc qdisc add dev e root fq_codel ",
        "tc qdisc add dev eth0 root fq_codel ",
        &[
            ("target 0", "target 0.000us"),
            ("target 1000s", "target 1000000000.000us"),
            ("interval 1us", "interval 1.000us"),
            ("interval 1000s", "interval 1000000000.000us"),
        ],
    )
}

#[test]
fn marks_of_an_fq_codel() -> Result<(), Error> {
    expect(
        NOTHING,
        "tc qdisc add dev e root fq_codel ",
        "tc qdisc add dev eth0 root fq_codel ",
        &[("ecn", "ecn"), ("noecn", "noecn")],
    )
}

#[test]
fn handles() -> Result<(), Error> {
    expect(
        NOTHING,
        "tc qdisc add dev e ",
        "tc qdisc add dev eth0 root ",
        &[
            ("root handle 1: drr", "handle 1: drr"),
            ("root handle fffe: drr", "handle fffe: drr"),
        ],
    )
}

#[test]
fn parents() -> Result<(), Error> {
    expect(
        CLASSES,
        "tc qdisc add dev e ",
        "tc qdisc add dev eth0 ",
        &[
            ("parent 1:1 drr", "parent 1:1 drr"),
            ("parent fffe:ffff drr", "parent fffe:ffff drr"),
        ],
    )
}
