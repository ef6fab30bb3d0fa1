//! Each spelling of each unit, and what is rounded down.
//! What they say is what the grammar gives: q_worked_examples has the same lines, with their answers
//! computed from it.
use crate::recorded::{DRR, NOTHING, expect};
use qtree::Error;

#[test]
fn rates() -> Result<(), Error> {
    expect(
        NOTHING,
        "tc qdisc add dev e root tbf burst 1 limit 0 rate ",
        "tc qdisc add dev eth0 root tbf ",
        &[
            ("1", "rate 1bit burst 1b limit 0b"),
            ("1bit", "rate 1bit burst 1b limit 0b"),
            ("1kbit", "rate 1000bit burst 1b limit 0b"),
            ("1mbit", "rate 1000000bit burst 1b limit 0b"),
            ("1gbit", "rate 1000000000bit burst 1b limit 0b"),
            ("1tbit", "rate 1000000000000bit burst 1b limit 0b"),
            ("1bps", "rate 8bit burst 1b limit 0b"),
            ("1kbps", "rate 8000bit burst 1b limit 0b"),
            ("1mbps", "rate 8000000bit burst 1b limit 0b"),
            ("1gbps", "rate 8000000000bit burst 1b limit 0b"),
            ("0.125tbps", "rate 1000000000000bit burst 1b limit 0b"),
            ("1KBit", "rate 1000bit burst 1b limit 0b"),
            ("1MBPS", "rate 8000000bit burst 1b limit 0b"),
            ("1.5", "rate 1bit burst 1b limit 0b"),
            ("0.0015kbit", "rate 1bit burst 1b limit 0b"),
            ("1.999999999kbit", "rate 1999bit burst 1b limit 0b"),
            ("0.3bps", "rate 2bit burst 1b limit 0b"),
            ("0.000000001tbps", "rate 8000bit burst 1b limit 0b"),
        ],
    )
}

#[test]
fn sizes() -> Result<(), Error> {
    expect(
        NOTHING,
        "tc qdisc add dev e root bfifo limit ",
        "tc qdisc add dev eth0 root bfifo ",
        &[
            ("1", "limit 1b"),
            ("1b", "limit 1b"),
            ("1k", "limit 1024b"),
            ("1kb", "limit 1024b"),
            ("1m", "limit 1048576b"),
            ("1mb", "limit 1048576b"),
            ("1g", "limit 1073741824b"),
            ("1gb", "limit 1073741824b"),
            ("1kbit", "limit 128b"),
            ("1mbit", "limit 131072b"),
            ("1gbit", "limit 134217728b"),
            ("1KB", "limit 1024b"),
            ("1MBit", "limit 131072b"),
            ("1.5", "limit 1b"),
            ("1.5k", "limit 1536b"),
            ("0.9b", "limit 0b"),
            ("0.0009k", "limit 0b"),
            ("0.007kbit", "limit 0b"),
            ("0.008kbit", "limit 1b"),
            ("3.999999999g", "limit 4294967294b"),
        ],
    )
}

#[test]
fn times() -> Result<(), Error> {
    expect(
        NOTHING,
        "tc qdisc add dev e root fq_codel ",
        "tc qdisc add dev eth0 root fq_codel ",
        &[
            ("target 1", "target 1.000us"),
            ("target 1us", "target 1.000us"),
            ("target 1usec", "target 1.000us"),
            ("target 1usecs", "target 1.000us"),
            ("target 1ms", "target 1000.000us"),
            ("target 1msec", "target 1000.000us"),
            ("target 1msecs", "target 1000.000us"),
            ("target 1s", "target 1000000.000us"),
            ("target 1sec", "target 1000000.000us"),
            ("target 1secs", "target 1000000.000us"),
            ("target 1MS", "target 1000.000us"),
            ("target 1Sec", "target 1000000.000us"),
            ("target 0.5", "target 0.500us"),
            ("target 0.5us", "target 0.500us"),
            ("target 0.0005us", "target 0.000us"),
            ("target 0.1234567us", "target 0.123us"),
            ("target 0.0000019ms", "target 0.001us"),
            ("target 0.000000001s", "target 0.001us"),
        ],
    )
}

#[test]
fn units_of_a_tbf() -> Result<(), Error> {
    expect(
        NOTHING,
        "tc qdisc add dev e root tbf ",
        "tc qdisc add dev eth0 root tbf ",
        &[
            (
                "rate 8kbit buffer 2kb latency 70ms",
                "rate 8000bit burst 2048b latency 70000.000us",
            ),
            (
                "rate 1kbps maxburst 1.5k limit 32kbit",
                "rate 8000bit burst 1536b limit 4096b",
            ),
        ],
    )
}

#[test]
fn units_of_an_fq_codel() -> Result<(), Error> {
    expect(
        NOTHING,
        "tc qdisc add dev e root fq_codel ",
        "tc qdisc add dev eth0 root fq_codel ",
        &[
            (
                "quantum 1.5kb interval 0.1s",
                "quantum 1536b interval 100000.000us",
            ),
            (
                "quantum 1kbit interval 1.5",
                "quantum 128b interval 1.500us",
            ),
        ],
    )
}

#[test]
fn units_of_a_quantum() -> Result<(), Error> {
    expect(
        DRR,
        "tc class add dev e parent ",
        "tc class add dev eth0 parent ",
        &[(
            "1: classid 1:1 drr quantum 1.5kb",
            "1: classid 1:1 drr quantum 1536b",
        )],
    )
}
