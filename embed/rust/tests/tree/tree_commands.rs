//! Trees that commands make: qdiscs put into classes and removed, and packets that go through them.
use crate::bench::{Call, GATE, GATED, KEPT, play};
use crate::lines::New;
use qtree::{Cause, Error, Fate, Place, Refusal};

#[test]
fn a_prio_sends_its_first_band_first() -> Result<(), Error> {
    play(&[
        Call::Graft(Place::Root, 1, New::Prio(3), None),
        Call::Put(1, 100, 2, KEPT),
        Call::Put(2, 100, 0, KEPT),
        Call::Put(3, 100, 1, KEPT),
        Call::Take(2),
        Call::Take(3),
        Call::Take(1),
        Call::Take(0),
        Call::Counts(Place::Class(1, 3), [1, 1, 0, 0, 0]),
        Call::Counts(Place::Root, [3, 3, 0, 0, 0]),
    ])
}

#[test]
fn a_tbf_that_has_to_wait_is_passed_over() -> Result<(), Error> {
    play(&[
        Call::Graft(Place::Root, 1, New::Prio(2), None),
        Call::Graft(Place::Class(1, 1), 2, New::Tbf(1500), None),
        Call::Put(1, 1000, 0, KEPT),
        Call::Put(2, 1000, 0, KEPT),
        Call::Put(3, 1000, 1, KEPT),
        Call::Take(1),
        Call::Take(3),
        Call::Take(0),
        // The bucket had 500 bytes left; 1 mbit a second brings the others in 4 ms.
        Call::At(3_999_999),
        Call::Take(0),
        Call::At(4_000_000),
        Call::Take(2),
        Call::Counts(Place::Class(2, 1), [2, 2, 0, 0, 0]),
    ])
}

#[test]
fn a_packet_longer_than_the_burst_is_refused() -> Result<(), Error> {
    play(&[
        Call::Graft(Place::Root, 1, New::Tbf(1000), None),
        Call::Put(1, 1001, 0, Fate::Lost(Cause::TooLong)),
        Call::Put(2, 1000, 0, KEPT),
        Call::Take(2),
        Call::Counts(Place::Root, [2, 1, 1, 0, 0]),
        Call::Counts(Place::Class(1, 1), [1, 1, 0, 0, 0]),
        Call::Losses(1),
    ])
}

#[test]
fn seven_tbfs_stand_over_a_leaf_and_no_eighth() -> Result<(), Error> {
    play(&[
        Call::Graft(Place::Root, 1, New::Tbf(1500), None),
        Call::Graft(Place::Class(1, 1), 2, New::Tbf(1500), None),
        Call::Graft(Place::Class(2, 1), 3, New::Tbf(1500), None),
        Call::Graft(Place::Class(3, 1), 4, New::Tbf(1500), None),
        Call::Graft(Place::Class(4, 1), 5, New::Tbf(1500), None),
        Call::Graft(Place::Class(5, 1), 6, New::Tbf(1500), None),
        Call::Graft(Place::Class(6, 1), 7, New::Tbf(1500), None),
        Call::Graft(
            Place::Class(7, 1),
            8,
            New::Tbf(1500),
            Some(Refusal::TooDeep),
        ),
        Call::Graft(Place::Class(7, 1), 8, New::Pfifo, None),
        Call::Nodes(8),
        Call::Put(1, 1500, 0, KEPT),
        Call::Take(1),
        Call::Counts(Place::Class(7, 1), [1, 1, 0, 0, 0]),
    ])
}

#[test]
fn the_first_refusal_of_a_new_qdisc_is_told() -> Result<(), Error> {
    play(&[
        Call::Graft(Place::Class(1, 1), 1, New::Pfifo, Some(Refusal::NoParent)),
        Call::Graft(Place::Root, 1, New::Prio(2), None),
        Call::Graft(Place::Root, 1, New::Pfifo, Some(Refusal::Exists)),
        Call::Graft(Place::Class(1, 3), 1, New::Pfifo, Some(Refusal::NoClass)),
        Call::Graft(
            Place::Class(1, 1),
            1,
            New::Pfifo,
            Some(Refusal::HandleTaken),
        ),
        Call::Graft(Place::Class(1, 1), 2, New::Pfifo, None),
        Call::Graft(
            Place::Class(2, 1),
            2,
            New::Pfifo,
            Some(Refusal::NotClassful),
        ),
        Call::Filter(3, Some(Refusal::NoClass)),
        Call::Prune(3, Some(Refusal::NoQdisc)),
        Call::Nodes(3),
    ])
}

#[test]
fn the_least_free_handle_is_given() -> Result<(), Error> {
    play(&[
        Call::Graft(Place::Root, 0x8002, New::Prio(4), None),
        Call::Graft(Place::Class(0x8002, 1), 0, New::Pfifo, None),
        Call::Graft(Place::Class(0x8002, 2), 0, New::Pfifo, None),
        Call::Shown(1, Place::Class(0x8002, 1), 0x8001),
        Call::Shown(2, Place::Class(0x8002, 2), 0x8003),
        Call::Shown(3, Place::Class(0x8002, 3), 0),
        Call::Prune(0x8001, None),
        Call::Shown(1, Place::Class(0x8002, 1), 0),
        Call::Graft(Place::Class(0x8002, 4), 0, New::Pfifo, None),
        Call::Shown(4, Place::Class(0x8002, 4), 0x8001),
        // A handle that a line names is free again too.
        Call::Graft(
            Place::Class(0x8002, 1),
            0x8003,
            New::Drr,
            Some(Refusal::HandleTaken),
        ),
        Call::Prune(0x8003, None),
        Call::Graft(Place::Class(0x8002, 1), 0x8003, New::Drr, None),
        Call::Shown(1, Place::Class(0x8002, 1), 0x8003),
        Call::Shown(2, Place::Class(0x8002, 2), 0),
    ])
}

#[test]
fn what_is_removed_is_booked_at_every_node_above() -> Result<(), Error> {
    play(&[
        Call::Graft(Place::Root, 1, New::Prio(2), None),
        Call::Graft(Place::Class(1, 1), 2, New::Prio(2), None),
        Call::Put(1, 100, 0, KEPT),
        Call::Put(2, 200, 1, KEPT),
        Call::Prune(2, None),
        Call::Prune(2, Some(Refusal::NoQdisc)),
        Call::Counts(Place::Top, [2, 0, 0, 1, 1]),
        Call::Counts(Place::Root, [2, 0, 0, 1, 1]),
        Call::Counts(Place::Class(1, 1), [0, 0, 0, 0, 0]),
        Call::Losses(1),
        Call::Take(2),
        Call::Nodes(3),
    ])
}

#[test]
fn a_filter_chooses_a_band_before_the_priority() -> Result<(), Error> {
    play(&[
        Call::Graft(Place::Root, 1, New::Prio(2), None),
        Call::Put(1, 100, 0, KEPT),
        Call::Filter(2, None),
        Call::Put(2, 100, 0, KEPT),
        Call::Counts(Place::Class(1, 1), [1, 0, 0, 0, 1]),
        Call::Counts(Place::Class(1, 2), [1, 0, 0, 0, 1]),
    ])
}

// Below a gate a prio over a tbf, which holds the first of two packets.
const HOLDING: [Call; 10] = [
    Call::Graft(GATED, 1, New::Prio(2), None),
    Call::Graft(Place::Class(1, 1), 2, New::Tbf(1500), None),
    Call::Put(1, 1000, 0, KEPT),
    Call::Put(2, 1000, 0, KEPT),
    Call::Later,
    Call::Later,
    Call::Counts(Place::Class(2, 1), [2, 1, 0, 0, 1]),
    Call::Counts(Place::Class(1, 1), [2, 0, 0, 0, 2]),
    Call::Counts(GATED, [2, 0, 0, 0, 2]),
    Call::Counts(Place::Root, [3, 1, 0, 0, 2]),
];

#[test]
fn a_held_packet_is_queued_at_its_holder_alone() -> Result<(), Error> {
    let removed = [
        Call::Prune(2, None),
        Call::Losses(2),
        Call::Counts(GATED, [2, 0, 0, 2, 0]),
        Call::Counts(Place::Root, [3, 1, 0, 2, 0]),
    ];
    play(&[&GATE[..], &HOLDING, &removed].concat())?;
    let sent = [
        Call::At(1000),
        Call::Take(1),
        Call::Counts(Place::Class(2, 1), [2, 1, 0, 0, 1]),
        Call::Counts(Place::Class(1, 1), [2, 1, 0, 0, 1]),
        Call::Counts(GATED, [2, 1, 0, 0, 1]),
    ];
    play(&[&GATE[..], &HOLDING, &sent].concat())
}

#[test]
fn the_fat_flow_drops_at_every_node_above() -> Result<(), Error> {
    play(&[
        Call::Graft(Place::Root, 1, New::Prio(2), None),
        Call::Graft(Place::Class(1, 1), 2, New::FqCodel(2), None),
        Call::Put(1, 100, 0, KEPT),
        Call::Put(2, 100, 0, KEPT),
        Call::Put(3, 100, 0, KEPT),
        Call::Counts(Place::Class(1, 1), [3, 0, 0, 1, 2]),
        Call::Counts(Place::Root, [3, 0, 0, 1, 2]),
        Call::Counts(Place::Top, [3, 0, 0, 1, 2]),
        Call::Losses(1),
        Call::Take(2),
        Call::Take(3),
        Call::Take(0),
    ])
}

#[test]
fn a_bfifo_takes_what_fits_its_bytes() -> Result<(), Error> {
    play(&[
        Call::Graft(Place::Root, 1, New::Bfifo(250), None),
        Call::Put(1, 100, 0, KEPT),
        Call::Put(2, 151, 0, Fate::Lost(Cause::OverLimit)),
        Call::Put(3, 150, 0, KEPT),
        Call::Counts(Place::Root, [3, 0, 1, 0, 2]),
        Call::Take(1),
        Call::Take(3),
    ])
}

// A packet of each priority, which goes into the band of its number.
#[test]
fn each_priority_has_a_band_of_sixteen() -> Result<(), Error> {
    let mut calls = vec![Call::Graft(Place::Root, 1, New::Prio(16), None)];
    for prio in 0..16u8 {
        let band = Place::Class(1, u16::from(prio) + 1);
        calls.extend([
            Call::Counts(band, [0; 5]),
            Call::Put(u64::from(prio), 100, prio, KEPT),
            Call::Counts(band, [1, 0, 0, 0, 1]),
        ]);
    }
    play(&calls)
}

// What a tree does that has so many.
const AT_256_NODES: [Call; 6] = [
    Call::Nodes(241),
    Call::Graft(
        Place::Class(1, 15),
        16,
        New::Prio(16),
        Some(Refusal::TooMany),
    ),
    Call::Graft(Place::Class(1, 15), 16, New::Prio(15), None),
    Call::Nodes(256),
    Call::Graft(
        Place::Class(1, 16),
        17,
        New::Tbf(1500),
        Some(Refusal::TooMany),
    ),
    Call::Graft(Place::Class(1, 16), 17, New::Pfifo, None),
];

// A prio of sixteen is in each of the first fourteen bands.
#[test]
fn a_tree_has_at_most_256_nodes() -> Result<(), Error> {
    let mut calls = vec![Call::Graft(Place::Root, 1, New::Prio(16), None)];
    calls.extend(
        (1..15).map(|band| Call::Graft(Place::Class(1, band), band + 1, New::Prio(16), None)),
    );
    calls.extend(AT_256_NODES);
    play(&calls)
}
