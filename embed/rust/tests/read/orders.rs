//! Priomaps before their bands, and behind them.
//! What they say is what the grammar gives: q_worked_examples has the same lines, with their answers
//! computed from it.
use crate::recorded::{NOTHING, expect};
use qtree::Error;

#[test]
fn bands_given_later() -> Result<(), Error> {
    expect(
        NOTHING,
        "tc qdisc add dev e root prio ",
        "tc qdisc add dev eth0 root prio ",
        &[
            (
                "priomap 0 0 0 0 0 0 0 0 0 0 0 0 0 0 0 3 bands 4",
                "bands 4 priomap 0 0 0 0 0 0 0 0 0 0 0 0 0 0 0 3",
            ),
            (
                "priomap 4 0 0 0 0 0 0 0 0 0 0 0 0 0 0 0 bands 5",
                "bands 5 priomap 4 0 0 0 0 0 0 0 0 0 0 0 0 0 0 0",
            ),
            (
                "priomap 0 15 0 15 0 15 0 15 0 15 0 15 0 15 0 15 bands 16",
                "bands 16 priomap 0 15 0 15 0 15 0 15 0 15 0 15 0 15 0 15",
            ),
            (
                "priomap 2 2 2 2 2 2 2 2 2 2 2 2 2 2 2 2",
                "bands 3 priomap 2 2 2 2 2 2 2 2 2 2 2 2 2 2 2 2",
            ),
            (
                "priomap 1 1 1 1 1 1 1 1 1 1 1 1 1 1 1 1 bands 2",
                "bands 2 priomap 1 1 1 1 1 1 1 1 1 1 1 1 1 1 1 1",
            ),
            (
                "bands 4 priomap 3 0 0 0 0 0 0 0 0 0 0 0 0 0 0 0",
                "bands 4 priomap 3 0 0 0 0 0 0 0 0 0 0 0 0 0 0 0",
            ),
        ],
    )
}
