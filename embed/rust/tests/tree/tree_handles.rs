//! Handles of a tree that is edited: each is found where it is, until it goes, and may then be
//! given again.
use crate::bench::{Call, play};
use crate::lines::New;
use qtree::{Error, Place, Refusal};

// The handle of the prio in a class of the drr.
fn prio(m: u16) -> u16 {
    16 + m
}

// The handle of the pfifo in a band of that prio.
fn pfifo(m: u16, b: u16) -> u16 {
    256 * m + b
}

// A class of the drr, with a prio of 16 pfifos, which all have a handle.
fn add_class(calls: &mut Vec<Call>, m: u16) {
    calls.push(Call::AddClass(1, m, 1500, None));
    let class = Place::Class(1, m);
    calls.push(Call::Graft(class, prio(m), New::Prio(16), None));
    for b in 1..17 {
        let band = Place::Class(prio(m), b);
        calls.push(Call::Graft(band, pfifo(m, b), New::Packets(5), None));
    }
}

// Finds what is in a class.
fn find_class(calls: &mut Vec<Call>, m: u16) {
    calls.push(Call::Change(prio(m), New::Prio(16), None));
    calls.push(Call::Counts(Place::Class(1, m), [0; 5]));
    for b in 1..17 {
        let band = Place::Class(prio(m), b);
        let shown = usize::from((m - 1) * 17 + 1 + b);
        calls.extend([
            Call::Change(pfifo(m, b), New::Packets(7), None),
            Call::Counts(band, [0; 5]),
            Call::Shown(shown, band, pfifo(m, b)),
        ]);
    }
}

// A drr of 15 prios, each of 16 pfifos.
#[test]
fn each_of_256_handles_is_found() -> Result<(), Error> {
    let mut calls = vec![Call::Graft(Place::Root, 1, New::Drr, None)];
    (1..16).for_each(|m| add_class(&mut calls, m));
    calls.push(Call::Nodes(256));
    (1..16).for_each(|m| find_class(&mut calls, m));
    play(&calls)
}

#[test]
fn a_freed_handle_is_given_again() -> Result<(), Error> {
    play(&[
        Call::Graft(Place::Root, 1, New::Prio(3), None),
        Call::Graft(Place::Class(1, 1), 2, New::Packets(5), None),
        Call::Graft(
            Place::Class(1, 2),
            2,
            New::Packets(5),
            Some(Refusal::HandleTaken),
        ),
        Call::Prune(2, None),
        Call::Change(2, New::Packets(6), Some(Refusal::NoQdisc)),
        Call::Graft(Place::Class(1, 2), 2, New::Packets(5), None),
        Call::Change(2, New::Packets(6), None),
        Call::Shown(1, Place::Class(1, 1), 0),
        Call::Shown(2, Place::Class(1, 2), 2),
    ])
}

#[test]
fn the_least_free_handle_is_given() -> Result<(), Error> {
    play(&[
        Call::Graft(Place::Root, 0, New::Prio(5), None),
        Call::Graft(Place::Class(0x8001, 1), 0, New::Pfifo, None),
        Call::Graft(Place::Class(0x8001, 2), 0, New::Pfifo, None),
        Call::Graft(Place::Class(0x8001, 3), 0, New::Pfifo, None),
        Call::Shown(3, Place::Class(0x8001, 3), 0x8004),
        Call::Prune(0x8002, None),
        Call::Prune(0x8003, None),
        Call::Graft(Place::Class(0x8001, 4), 0, New::Pfifo, None),
        Call::Shown(4, Place::Class(0x8001, 4), 0x8002),
        Call::Graft(Place::Class(0x8001, 1), 0, New::Pfifo, None),
        Call::Shown(1, Place::Class(0x8001, 1), 0x8003),
        Call::Graft(Place::Class(0x8001, 2), 0, New::Pfifo, None),
        Call::Shown(2, Place::Class(0x8001, 2), 0x8005),
    ])
}

#[test]
fn classes_behind_a_removed_one_are_found() -> Result<(), Error> {
    play(&[
        Call::Graft(Place::Root, 1, New::Drr, None),
        Call::AddClass(1, 1, 1500, None),
        Call::AddClass(1, 2, 1500, None),
        Call::AddClass(1, 3, 1500, None),
        Call::AddClass(1, 4, 1500, None),
        Call::Graft(Place::Class(1, 2), 0x20, New::Prio(2), None),
        Call::Graft(Place::Class(1, 3), 0x30, New::Prio(2), None),
        Call::Graft(Place::Class(0x30, 2), 0x31, New::Packets(5), None),
        Call::Graft(Place::Class(1, 4), 0x40, New::Packets(5), None),
        Call::DelClass(1, 1, None),
        Call::Change(0x20, New::Prio(2), None),
        Call::Change(0x30, New::Prio(3), None),
        Call::Change(0x31, New::Packets(7), None),
        Call::Change(0x40, New::Packets(6), None),
        Call::Shown(1, Place::Class(1, 2), 0x20),
        Call::Shown(4, Place::Class(1, 3), 0x30),
        Call::Shown(6, Place::Class(0x30, 2), 0x31),
        Call::Shown(8, Place::Class(1, 4), 0x40),
        Call::DelClass(1, 2, None),
        Call::Change(0x20, New::Prio(2), Some(Refusal::NoQdisc)),
        Call::Change(0x31, New::Packets(8), None),
        Call::Graft(Place::Class(0x30, 1), 0x20, New::Packets(5), None),
        Call::Shown(2, Place::Class(0x30, 1), 0x20),
        Call::Counts(Place::Class(0x30, 2), [0; 5]),
    ])
}

#[test]
fn handles_of_bands_that_go_are_free() -> Result<(), Error> {
    play(&[
        Call::Graft(Place::Root, 1, New::Prio(4), None),
        Call::Graft(Place::Class(1, 2), 3, New::Packets(5), None),
        Call::Graft(Place::Class(1, 3), 4, New::Prio(2), None),
        Call::Graft(Place::Class(4, 1), 5, New::Packets(5), None),
        Call::Change(1, New::Prio(2), None),
        Call::Change(4, New::Prio(2), Some(Refusal::NoQdisc)),
        Call::Change(5, New::Packets(6), Some(Refusal::NoQdisc)),
        Call::Change(3, New::Packets(6), None),
        Call::Change(1, New::Prio(4), None),
        Call::Graft(Place::Class(1, 4), 5, New::Packets(5), None),
        Call::Shown(4, Place::Class(1, 4), 5),
    ])
}

#[test]
fn a_subtree_takes_its_handles_with_it() -> Result<(), Error> {
    play(&[
        Call::Graft(Place::Root, 1, New::Prio(2), None),
        Call::Graft(Place::Class(1, 1), 2, New::Prio(2), None),
        Call::Graft(Place::Class(2, 1), 3, New::Packets(5), None),
        Call::Graft(Place::Class(2, 2), 4, New::Packets(5), None),
        Call::Prune(2, None),
        Call::Change(3, New::Packets(6), Some(Refusal::NoQdisc)),
        Call::Graft(Place::Class(1, 1), 3, New::Tbf(1500), None),
        Call::Graft(Place::Class(3, 1), 4, New::Packets(5), None),
        Call::Change(4, New::Packets(9), None),
        Call::Counts(Place::Class(3, 1), [0; 5]),
        Call::Prune(1, None),
        Call::Change(3, New::Tbf(1500), Some(Refusal::NoQdisc)),
        Call::Graft(Place::Root, 4, New::Packets(5), None),
        Call::Change(4, New::Packets(6), None),
    ])
}
