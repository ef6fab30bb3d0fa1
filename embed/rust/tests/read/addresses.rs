//! Prefixes of both versions of IP.
//! What they say is what the grammar gives: q_worked_examples has the same lines, with their answers
//! computed from it.
use crate::recorded::{CLASSES, expect};
use qtree::Error;

#[test]
fn prefixes_of_ipv4() -> Result<(), Error> {
    expect(
        CLASSES,
        "tc filter add dev e parent 1: prio 1 flower classid 1:1 src_ip ",
        "tc filter add dev eth0 parent 1: prio 1 protocol all flower ",
        &[
            ("1.2.3.4", "src_ip 1.2.3.4/32 classid 1:1"),
            ("1.2.3.4/0", "src_ip 1.2.3.4/0 classid 1:1"),
            ("1.2.3.4/32", "src_ip 1.2.3.4/32 classid 1:1"),
            ("1.2.3.4/008", "src_ip 1.2.3.4/8 classid 1:1"),
        ],
    )
}

#[test]
fn prefixes_of_ipv6() -> Result<(), Error> {
    expect(
        CLASSES,
        "tc filter add dev e parent 1: prio 1 flower classid 1:1 dst_ip ",
        "tc filter add dev eth0 parent 1: prio 1 protocol all flower ",
        &[
            ("1::2", "dst_ip 1:0:0:0:0:0:0:2/128 classid 1:1"),
            ("::/0", "dst_ip 0:0:0:0:0:0:0:0/0 classid 1:1"),
            ("::1/128", "dst_ip 0:0:0:0:0:0:0:1/128 classid 1:1"),
            (
                "1:2:3:4:5:6:7::/112",
                "dst_ip 1:2:3:4:5:6:7:0/112 classid 1:1",
            ),
        ],
    )
}
