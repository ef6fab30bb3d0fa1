//! When the packet arrived that has waited longest in a place: in queues, and where a qdisc holds
//! one.
use crate::bench::{Call, GATE, GATED, KEPT, play};
use crate::lines::New;
use qtree::{Error, Place};

// 8000 bits a second bring a byte in a millisecond.
const SLOW: New = New::Shaper(8_000, 1_500);

const FAST: New = New::Shaper(8_000_000, 3_000);

const NONE_AT_ROOT: Call = Call::Oldest(Place::Root, None);

fn at_root(ns: u64) -> Call {
    Call::Oldest(Place::Root, Some(ns))
}

// The same of the place below a gate.
fn gated(ns: u64) -> Call {
    Call::Oldest(GATED, Some(ns))
}

#[test]
fn a_fifo_has_its_head() -> Result<(), Error> {
    play(&[
        NONE_AT_ROOT,
        Call::Oldest(Place::Top, None),
        Call::At(5),
        Call::Put(1, 100, 0, KEPT),
        Call::At(9),
        Call::Put(2, 100, 0, KEPT),
        at_root(5),
        Call::Oldest(Place::Top, Some(5)),
        Call::Oldest(Place::Class(1, 1), None),
        Call::Take(1),
        at_root(9),
        Call::Take(2),
        NONE_AT_ROOT,
    ])
}

// The outer tbf waits for its level, and the inner one holds what it showed.
#[test]
fn a_packet_that_a_tbf_holds_has_waited_since_it_arrived() -> Result<(), Error> {
    play(&[
        Call::Graft(Place::Root, 1, SLOW, None),
        Call::Graft(Place::Class(1, 1), 2, FAST, None),
        Call::At(3),
        Call::Put(1, 1_000, 0, KEPT),
        Call::At(7),
        Call::Put(2, 1_000, 0, KEPT),
        Call::At(10),
        Call::Take(1),
        Call::Take(0),
        Call::At(11),
        Call::Put(3, 1_000, 0, KEPT),
        at_root(7),
        Call::Oldest(Place::Class(1, 1), Some(7)),
        Call::Oldest(Place::Class(2, 1), Some(11)),
        Call::At(2_000_000_000),
        Call::Take(2),
        at_root(11),
    ])
}

// A tree under a tbf that holds what it showed to the gate above it.
fn held_below_gate(below: New) -> Result<(), Error> {
    let calls = [
        Call::Graft(GATED, 1, FAST, None),
        Call::Graft(Place::Class(1, 1), 2, New::Prio(2), None),
        Call::Graft(Place::Class(2, 2), 3, below, None),
        Call::At(3),
        Call::Put(1, 100, 1, KEPT),
        Call::At(5),
        Call::Put(2, 100, 1, KEPT),
        Call::Later,
        Call::At(9),
        Call::Put(3, 100, 0, KEPT),
        gated(3),
        at_root(3),
        Call::Oldest(Place::Class(1, 1), Some(5)),
        Call::Oldest(Place::Class(2, 1), Some(9)),
        Call::At(300),
        Call::Take(1),
        gated(5),
        Call::Take(3),
        gated(5),
        Call::Take(2),
        Call::Oldest(GATED, None),
        NONE_AT_ROOT,
    ];
    play(&[&GATE[..], &calls].concat())
}

#[test]
fn a_tbf_holds_the_head_of_a_band() -> Result<(), Error> {
    held_below_gate(New::Pfifo)
}

#[test]
fn a_tbf_holds_what_an_fq_codel_held() -> Result<(), Error> {
    held_below_gate(New::Flows(4))
}

#[test]
fn a_tbf_holds_what_a_tbf_held() -> Result<(), Error> {
    held_below_gate(FAST)
}

#[test]
fn a_drr_holds_the_packet_of_a_class() -> Result<(), Error> {
    let calls = [
        Call::Graft(GATED, 1, New::Drr, None),
        Call::AddClass(1, 1, 100, None),
        Call::AddClass(1, 2, 1_500, None),
        Call::Match(1, 1, 1, None),
        Call::Match(1, 2, 2, None),
        Call::At(3),
        Call::Put(1, 1_000, 1, KEPT),
        Call::At(5),
        Call::Put(2, 1_000, 2, KEPT),
        gated(3),
        Call::Later,
        gated(3),
        Call::Oldest(Place::Class(1, 2), None),
        Call::Oldest(Place::Class(1, 1), Some(3)),
        Call::At(8),
        Call::Put(3, 1_000, 2, KEPT),
        Call::At(1_000),
        Call::Take(2),
        gated(3),
        Call::Oldest(Place::Class(1, 2), Some(8)),
    ];
    play(&[&GATE[..], &calls].concat())
}

#[test]
fn the_oldest_of_all_flows() -> Result<(), Error> {
    let calls = [
        Call::Graft(GATED, 1, New::Flows(4), None),
        Call::At(3),
        Call::Put(1, 1_000, 2, KEPT),
        Call::At(5),
        Call::Put(2, 1_000, 1, KEPT),
        Call::Put(3, 1_000, 3, KEPT),
        gated(3),
        Call::At(1_000),
        Call::Take(1),
        gated(5),
        Call::Later,
        gated(5),
        Call::At(2_000),
        Call::Take(2),
        Call::At(3_000),
        Call::Take(3),
        Call::Oldest(GATED, None),
    ];
    play(&[&GATE[..], &calls].concat())
}

// CoDel drops a packet before the one that is held: the queue stood for an interval of 100 ms. The
// tbf above has no bytes left for it.
#[test]
fn what_codel_sends_late_has_its_own_arrival() -> Result<(), Error> {
    play(&[
        Call::Graft(Place::Root, 9, SLOW, None),
        Call::Graft(GATED, 1, New::Flows(1), None),
        Call::At(1),
        Call::Put(1, 1_500, 0, KEPT),
        Call::At(2),
        Call::Put(2, 1_500, 0, KEPT),
        Call::At(3),
        Call::Put(3, 1_500, 0, KEPT),
        Call::At(4),
        Call::Put(4, 1_500, 0, KEPT),
        Call::At(5),
        Call::Put(5, 1_500, 0, KEPT),
        Call::At(10_000_000),
        Call::Take(1),
        Call::At(120_000_000),
        Call::Later,
        Call::Losses(1),
        gated(3),
        Call::At(1_510_000_000),
        Call::Take(3),
        gated(4),
    ])
}
