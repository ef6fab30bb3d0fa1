//! Classes and filters with each number at the ends of its range.
//! What they say is what the grammar gives: q_worked_examples has the same lines, with their answers
//! computed from it.
use crate::recorded::{CLASSES, DRR, expect};
use qtree::Error;

#[test]
fn classes() -> Result<(), Error> {
    expect(
        DRR,
        "tc class add dev e parent ",
        "tc class add dev eth0 parent ",
        &[
            (
                "1: classid 1:1 drr quantum 1",
                "1: classid 1:1 drr quantum 1b",
            ),
            (
                "1: classid 1:1 drr quantum 4294967295",
                "1: classid 1:1 drr quantum 4294967295b",
            ),
            ("1: classid 1:1 drr", "1: classid 1:1 drr"),
        ],
    )
}

#[test]
fn filters() -> Result<(), Error> {
    expect(
        CLASSES,
        "tc filter add dev e parent ",
        "tc filter add dev eth0 parent ",
        &[
            (
                "1: prio 1 flower classid 1:1",
                "1: prio 1 protocol all flower classid 1:1",
            ),
            (
                "1: prio 65535 flower classid 1:1",
                "1: prio 65535 protocol all flower classid 1:1",
            ),
        ],
    )
}

#[test]
fn protocols_of_a_filter() -> Result<(), Error> {
    expect(
        CLASSES,
        "tc filter add dev e parent 1: prio 1 flower classid 1:1 ",
        "tc filter add dev eth0 parent 1: prio 1 protocol all flower ",
        &[
            ("ip_proto 0", "ip_proto 0 classid 1:1"),
            ("ip_proto ff", "ip_proto ff classid 1:1"),
        ],
    )
}

#[test]
fn source_ports_of_a_filter() -> Result<(), Error> {
    expect(
        CLASSES,
        "tc filter add dev e parent 1: prio 1 flower classid 1:1 ",
        "tc filter add dev eth0 parent 1: prio 1 protocol all flower ",
        &[
            ("src_port 0", "src_port 0 classid 1:1"),
            ("src_port 65535", "src_port 65535 classid 1:1"),
        ],
    )
}

#[test]
fn destination_ports_of_a_filter() -> Result<(), Error> {
    expect(
        CLASSES,
        "tc filter add dev e parent 1: prio 1 flower classid 1:1 ",
        "tc filter add dev eth0 parent 1: prio 1 protocol all flower ",
        &[
            ("dst_port 0", "dst_port 0 classid 1:1"),
            ("dst_port 65535", "dst_port 65535 classid 1:1"),
        ],
    )
}
