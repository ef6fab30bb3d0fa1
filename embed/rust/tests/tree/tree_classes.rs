//! Trees with a drr: its classes added, changed and removed, and what they send.
use crate::bench::{Call, KEPT, play};
use crate::lines::New;
use qtree::{Cause, Error, Fate, Place, Refusal};

#[test]
fn classes_send_by_their_deficits() -> Result<(), Error> {
    play(&[
        Call::Graft(Place::Root, 1, New::Drr, None),
        Call::AddClass(1, 1, 500, None),
        Call::AddClass(1, 2, 1500, None),
        Call::Match(1, 1, 1, None),
        Call::Match(1, 2, 2, None),
        Call::Put(9, 100, 3, Fate::Lost(Cause::NoClass)),
        Call::Put(1, 1000, 1, KEPT),
        Call::Put(2, 1000, 2, KEPT),
        Call::Put(3, 500, 2, KEPT),
        Call::Put(4, 500, 1, KEPT),
        // The first class is granted 500 bytes and goes to the end; the second has enough for both
        // of its packets.
        Call::Take(2),
        Call::Take(3),
        Call::Take(1),
        Call::Take(4),
        Call::Take(0),
        Call::Counts(Place::Root, [5, 4, 1, 0, 0]),
        Call::Counts(Place::Class(1, 1), [2, 2, 0, 0, 0]),
        Call::Counts(Place::Class(1, 2), [2, 2, 0, 0, 0]),
    ])
}

#[test]
fn a_drr_waits_for_the_tbf_of_its_front_class() -> Result<(), Error> {
    play(&[
        Call::Graft(Place::Root, 1, New::Drr, None),
        Call::AddClass(1, 1, 1500, None),
        Call::AddClass(1, 2, 1500, None),
        Call::Match(1, 1, 1, None),
        Call::Match(1, 2, 2, None),
        Call::Graft(Place::Class(1, 1), 2, New::Tbf(1500), None),
        Call::Put(1, 1000, 1, KEPT),
        Call::Put(2, 1000, 1, KEPT),
        Call::Put(3, 1000, 2, KEPT),
        Call::Take(1),
        // The class in front has nothing to show, and no other one is asked.
        Call::Take(0),
        Call::At(4_000_000),
        Call::Take(3),
        Call::Take(2),
        Call::Take(0),
    ])
}

#[test]
fn a_drop_of_codel_is_counted_at_every_node_above() -> Result<(), Error> {
    play(&[
        Call::Graft(Place::Root, 1, New::Prio(2), None),
        Call::Graft(Place::Class(1, 1), 2, New::Drr, None),
        Call::AddClass(2, 1, 1500, None),
        Call::Match(2, 1, 0, None),
        Call::Graft(Place::Class(2, 1), 3, New::FqCodel(5), None),
        Call::Put(1, 1000, 0, KEPT),
        Call::Put(2, 1000, 0, KEPT),
        Call::Put(3, 1000, 0, KEPT),
        Call::Put(4, 1000, 0, KEPT),
        Call::Put(5, 1000, 0, KEPT),
        // Above the target of 5 ms from here on, for longer than the interval of 100 ms at the next
        // take.
        Call::At(10_000_000),
        Call::Take(1),
        Call::At(120_000_000),
        Call::Take(3),
        Call::Counts(Place::Class(2, 1), [5, 2, 0, 1, 2]),
        Call::Counts(Place::Class(1, 1), [5, 2, 0, 1, 2]),
        Call::Counts(Place::Root, [5, 2, 0, 1, 2]),
        Call::Counts(Place::Top, [5, 2, 0, 1, 2]),
        Call::Losses(1),
    ])
}

#[test]
fn the_fat_flow_beneath_a_drr_drops_at_every_node_above() -> Result<(), Error> {
    play(&[
        Call::Graft(Place::Root, 1, New::Prio(2), None),
        Call::Graft(Place::Class(1, 1), 2, New::Drr, None),
        Call::AddClass(2, 1, 1500, None),
        Call::Match(2, 1, 0, None),
        Call::Graft(Place::Class(2, 1), 3, New::FqCodel(1), None),
        Call::Put(1, 100, 0, KEPT),
        Call::Put(2, 100, 0, KEPT),
        Call::Counts(Place::Class(2, 1), [2, 0, 0, 1, 1]),
        Call::Counts(Place::Class(1, 1), [2, 0, 0, 1, 1]),
        Call::Counts(Place::Top, [2, 0, 0, 1, 1]),
        Call::Losses(1),
        Call::Take(2),
        Call::Take(0),
    ])
}

#[test]
fn the_first_refusal_of_a_class_is_told() -> Result<(), Error> {
    play(&[
        Call::AddClass(1, 1, 0, Some(Refusal::NoQdisc)),
        Call::Graft(Place::Root, 1, New::Prio(2), None),
        Call::AddClass(1, 1, 0, Some(Refusal::CannotChange)),
        Call::ChangeClass(1, 1, 0, Some(Refusal::CannotChange)),
        Call::DelClass(1, 1, Some(Refusal::CannotChange)),
        Call::Graft(Place::Class(1, 1), 2, New::Pfifo, None),
        Call::AddClass(2, 1, 0, Some(Refusal::NotClassful)),
        Call::DelClass(2, 1, Some(Refusal::NotClassful)),
        Call::Graft(Place::Class(1, 2), 3, New::Drr, None),
        Call::ChangeClass(3, 1, 0, Some(Refusal::NoClass)),
        Call::DelClass(3, 1, Some(Refusal::NoClass)),
        Call::AddClass(3, 1, 0, None),
        Call::AddClass(3, 1, 0, Some(Refusal::Exists)),
        Call::Match(3, 1, 7, None),
        Call::DelClass(3, 1, Some(Refusal::Busy)),
        Call::Unfilter(3, None),
        Call::DelClass(3, 1, None),
        Call::Nodes(3),
    ])
}

#[test]
fn a_removed_class_loses_what_waits_there() -> Result<(), Error> {
    play(&[
        Call::Graft(Place::Root, 1, New::Prio(2), None),
        Call::Graft(Place::Class(1, 1), 2, New::Drr, None),
        Call::AddClass(2, 1, 1500, None),
        Call::AddClass(2, 2, 1500, None),
        Call::Match(2, 1, 0, None),
        Call::Put(1, 100, 0, KEPT),
        Call::Put(2, 200, 0, KEPT),
        Call::Put(3, 300, 1, KEPT),
        Call::Unfilter(2, None),
        Call::DelClass(2, 1, None),
        Call::Absent(Place::Class(2, 1)),
        Call::Counts(Place::Class(1, 1), [2, 0, 0, 2, 0]),
        Call::Counts(Place::Root, [3, 0, 0, 2, 1]),
        Call::Counts(Place::Top, [3, 0, 0, 2, 1]),
        Call::Losses(2),
        Call::Take(3),
        Call::Take(0),
    ])
}

#[test]
fn classes_are_shown_in_the_order_in_which_they_came() -> Result<(), Error> {
    play(&[
        Call::Graft(Place::Root, 1, New::Drr, None),
        Call::AddClass(1, 5, 0, None),
        Call::AddClass(1, 3, 0, None),
        Call::AddClass(1, 4, 0, None),
        Call::Shown(1, Place::Class(1, 5), 0),
        Call::Shown(2, Place::Class(1, 3), 0),
        Call::Shown(3, Place::Class(1, 4), 0),
        Call::DelClass(1, 3, None),
        Call::DelClass(1, 5, None),
        Call::Shown(1, Place::Class(1, 4), 0),
        Call::AddClass(1, 5, 0, None),
        Call::AddClass(1, 3, 0, None),
        Call::Shown(1, Place::Class(1, 4), 0),
        Call::Shown(2, Place::Class(1, 5), 0),
        Call::Shown(3, Place::Class(1, 3), 0),
        Call::Nodes(4),
    ])
}

#[test]
fn a_class_stands_on_the_eighth_level_at_most() -> Result<(), Error> {
    play(&[
        Call::Graft(Place::Root, 1, New::Tbf(1500), None),
        Call::Graft(Place::Class(1, 1), 2, New::Tbf(1500), None),
        Call::Graft(Place::Class(2, 1), 3, New::Tbf(1500), None),
        Call::Graft(Place::Class(3, 1), 4, New::Tbf(1500), None),
        Call::Graft(Place::Class(4, 1), 5, New::Tbf(1500), None),
        Call::Graft(Place::Class(5, 1), 6, New::Tbf(1500), None),
        Call::Graft(Place::Class(6, 1), 7, New::Drr, None),
        Call::AddClass(7, 1, 0, None),
        Call::Graft(Place::Class(7, 1), 8, New::Drr, None),
        Call::AddClass(8, 1, 0, Some(Refusal::TooDeep)),
    ])
}

#[test]
fn a_drr_has_at_most_255_classes_at_the_root() -> Result<(), Error> {
    let mut calls = vec![Call::Graft(Place::Root, 1, New::Drr, None)];
    calls.extend((1..256).map(|minor| Call::AddClass(1, minor, 0, None)));
    calls.extend([
        Call::Nodes(256),
        Call::AddClass(1, 256, 0, Some(Refusal::TooMany)),
        Call::DelClass(1, 1, None),
        Call::AddClass(1, 256, 0, None),
    ]);
    play(&calls)
}

#[test]
fn a_node_has_at_most_256_filters() -> Result<(), Error> {
    let mut calls = vec![Call::Graft(Place::Root, 1, New::Prio(2), None)];
    calls.extend([Call::Match(1, 1, 1, None); 256]);
    calls.extend([
        // The class is not there either.
        Call::Match(1, 3, 1, Some(Refusal::NoClass)),
        Call::Match(1, 1, 1, Some(Refusal::TooMany)),
        Call::Unfilter(1, None),
        Call::Match(1, 1, 1, None),
    ]);
    play(&calls)
}
