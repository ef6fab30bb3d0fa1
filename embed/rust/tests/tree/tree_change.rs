//! Qdiscs that get other settings: what stays, what goes, and what is refused.
use crate::bench::{Call, KEPT, play};
use crate::lines::New;
use qtree::{Cause, Error, Fate, Place, Refusal};

#[test]
fn a_smaller_limit_removes_nothing() -> Result<(), Error> {
    play(&[
        Call::Graft(Place::Root, 1, New::Pfifo, None),
        Call::Put(1, 100, 0, KEPT),
        Call::Put(2, 100, 0, KEPT),
        Call::Change(1, New::Packets(1), None),
        Call::Counts(Place::Root, [2, 0, 0, 0, 2]),
        Call::Put(3, 100, 0, Fate::Lost(Cause::OverLimit)),
        Call::Take(1),
        Call::Put(4, 100, 0, Fate::Lost(Cause::OverLimit)),
        // Where none is given, the limit stays.
        Call::Change(1, New::Pfifo, None),
        Call::Take(2),
        Call::Put(5, 100, 0, KEPT),
        Call::Put(6, 100, 0, Fate::Lost(Cause::OverLimit)),
    ])
}

#[test]
fn bands_that_go_lose_what_waits_there() -> Result<(), Error> {
    play(&[
        Call::Graft(Place::Root, 1, New::Prio(4), None),
        Call::Put(1, 100, 0, KEPT),
        Call::Put(2, 100, 1, KEPT),
        Call::Put(3, 100, 2, KEPT),
        Call::Put(4, 100, 3, KEPT),
        Call::Change(1, New::Prio(2), None),
        Call::Losses(2),
        Call::Counts(Place::Root, [4, 0, 0, 2, 2]),
        Call::Counts(Place::Top, [4, 0, 0, 2, 2]),
        Call::Nodes(3),
        Call::Take(1),
        Call::Take(2),
        Call::Take(0),
        Call::Change(1, New::Prio(3), None),
        Call::Nodes(4),
        Call::Put(5, 100, 2, KEPT),
        Call::Counts(Place::Class(1, 3), [1, 0, 0, 0, 1]),
        Call::Take(5),
    ])
}

#[test]
fn a_bucket_keeps_its_level_and_its_burst_falls_to_the_mtu() -> Result<(), Error> {
    play(&[
        Call::Graft(Place::Root, 1, New::Tbf(3000), None),
        Call::Change(1, New::Tbf(1499), Some(Refusal::SmallBurst)),
        Call::Change(1, New::Tbf(1500), None),
        Call::Put(1, 1500, 0, KEPT),
        Call::Put(2, 1500, 0, KEPT),
        Call::Take(1),
        // A greater burst brings no bytes.
        Call::Change(1, New::Tbf(3000), None),
        Call::Take(0),
        Call::At(11_999_999),
        Call::Take(0),
        Call::At(12_000_000),
        Call::Take(2),
    ])
}

#[test]
fn flows_stay_as_many_as_they_are() -> Result<(), Error> {
    play(&[
        Call::Graft(Place::Root, 1, New::FqCodel(5), None),
        Call::Put(1, 100, 0, KEPT),
        Call::Put(2, 100, 0, KEPT),
        Call::Change(1, New::Flows(2), Some(Refusal::CannotChange)),
        Call::Change(1, New::Flows(1), None),
        Call::Change(1, New::FqCodel(1), None),
        Call::Counts(Place::Root, [2, 0, 0, 0, 2]),
        Call::Put(3, 100, 0, KEPT),
        Call::Counts(Place::Root, [3, 0, 0, 1, 2]),
        Call::Take(2),
        Call::Take(3),
    ])
}

#[test]
fn the_first_refusal_of_a_change_is_told() -> Result<(), Error> {
    play(&[
        Call::Change(1, New::Pfifo, Some(Refusal::NoQdisc)),
        Call::Graft(Place::Root, 1, New::Prio(3), None),
        Call::Change(1, New::Pfifo, Some(Refusal::CannotChange)),
        Call::Change(1, New::Drr, Some(Refusal::CannotChange)),
        Call::Filter(3, None),
        Call::Change(1, New::Prio(2), Some(Refusal::Busy)),
        Call::Change(1, New::Prio(3), None),
        Call::Graft(Place::Class(1, 1), 2, New::Pfifo, None),
        Call::Change(2, New::Bfifo(1), Some(Refusal::CannotChange)),
        Call::Graft(Place::Class(1, 2), 3, New::Drr, None),
        Call::Change(3, New::Drr, None),
    ])
}

// A prio of 16 bands with a prio in each.
#[test]
fn bands_are_added_up_to_256_nodes() -> Result<(), Error> {
    let mut calls = vec![Call::Graft(Place::Root, 1, New::Prio(16), None)];
    calls.extend((1..16).map(|minor| Call::Graft(Place::Class(1, minor), 0, New::Prio(15), None)));
    calls.extend([
        Call::Graft(Place::Class(1, 16), 2, New::Prio(14), None),
        Call::Nodes(256),
        Call::Change(2, New::Prio(15), Some(Refusal::TooMany)),
        Call::Change(2, New::Prio(14), None),
        Call::Change(0x8001, New::Prio(14), None),
        Call::Change(2, New::Prio(15), None),
        Call::Nodes(256),
    ]);
    play(&calls)
}
