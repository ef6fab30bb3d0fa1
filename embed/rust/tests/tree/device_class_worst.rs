//! How long a packet of a class of a drr waits at most: what a device answers, and a packet that
//! waits just so long.
use crate::device_bench::{Ask, Call, called};
use crate::device_worst::{Told, answers, answers_1500};
use crate::lines::New;
use qtree::{Error, Fate, Place};

const LINK: Ask = Ask::Graft(Place::Root, 1, New::Shaper(20_000_000, 1_640));

/// The drr 2: in this place, with classes that get 3000 and 1500 of every 4500 bytes; the first has
/// a bfifo.
fn classes(place: Place) -> [Ask; 4] {
    [
        Ask::Graft(place, 2, New::Drr),
        Ask::AddClass(2, 1, 3_000),
        Ask::AddClass(2, 2, 1_500),
        Ask::Graft(Place::Class(2, 1), 3, New::Bfifo(1_500)),
    ]
}

/// What is told of both classes; the second has a pfifo of 1000 packets.
const ON_A_LINK: [(Place, Option<Told>); 4] = [
    (Place::Class(2, 1), Some((7_527, Some((3_010_800, 50_399))))),
    (
        Place::Class(2, 2),
        Some((4_550_027, Some((1_820_010_800, 50_399)))),
    ),
    (Place::Class(2, 3), None),
    (Place::Class(1, 1), None),
];

#[test]
fn a_class_waits_for_the_others_on_a_link() -> Result<(), Error> {
    let [drr, first, second, fifo] = classes(Place::Class(1, 1));
    answers(&[LINK, drr, first, second, fifo], &ON_A_LINK)
}

#[test]
fn a_drr_at_the_root_holds_no_packet() -> Result<(), Error> {
    let rows = [
        (Place::Class(2, 1), Some((6_013, None))),
        (Place::Root, None),
    ];
    answers(&classes(Place::Root), &rows)
}

#[test]
fn a_class_with_another_qdisc_is_answered_nothing() -> Result<(), Error> {
    let [drr, first, second, fifo] = classes(Place::Class(1, 1));
    let flows = Ask::Graft(Place::Class(2, 2), 4, New::FqCodel(10));
    answers(
        &[LINK, drr, first, second, fifo, flows],
        &[ON_A_LINK[0], (Place::Class(2, 2), None)],
    )
}

#[test]
fn two_drrs_are_answered_nothing() -> Result<(), Error> {
    let [drr, first, second, fifo] = classes(Place::Class(5, 1));
    let lines = [
        Ask::Graft(Place::Root, 5, New::Drr),
        Ask::AddClass(5, 1, 1_500),
        drr,
        first,
        second,
        fifo,
    ];
    let rows = [
        (Place::Class(2, 1), None),
        (Place::Class(2, 2), None),
        (Place::Class(5, 1), None),
    ];
    answers(&lines, &rows)
}

#[test]
fn a_tbf_beside_the_class_takes_the_answer_away() -> Result<(), Error> {
    let [drr, first, second, fifo] = classes(Place::Class(1, 1));
    let tbf = Ask::Graft(Place::Class(2, 2), 4, New::Tbf(1_640));
    answers(
        &[LINK, drr, first, second, fifo, tbf],
        &[(Place::Class(2, 1), None), (Place::Class(4, 1), None)],
    )
}

#[test]
fn a_class_on_a_burst_without_room_is_answered_nothing() -> Result<(), Error> {
    let link = Ask::Graft(Place::Root, 1, New::Shaper(20_000_000, 1_514));
    let [drr, first, second, fifo] = classes(Place::Class(1, 1));
    answers(
        &[link, drr, first, second, fifo],
        &[(Place::Class(2, 1), None)],
    )
}

// ---- a packet that waits just so long, where the mtu is 1500

/// A tbf of 1 mbit with a burst of 1640 bytes, and two classes below it; the second has a bfifo.
const TBF: Ask = Ask::Graft(Place::Root, 1, New::Tbf(1_640));

const DRR: Ask = Ask::Graft(Place::Class(1, 1), 2, New::Drr);

const ADD_FIRST: Ask = Ask::AddClass(2, 1, 10_000);

const ADD_SECOND: Ask = Ask::AddClass(2, 2, 1);

const BFIFO: Ask = Ask::Graft(Place::Class(2, 2), 3, New::Bfifo(1_000));

/// The quanta as they are then.
const LOWER_FIRST: Ask = Ask::ChangeClass(2, 1, 1);

const RAISE_SECOND: Ask = Ask::ChangeClass(2, 2, 1_000);

#[test]
fn a_class_in_the_worst_state_is_told_its_delay() -> Result<(), Error> {
    let rows = [(
        Place::Class(2, 2),
        Some((4_001, Some((32_008_000, 1_119_999)))),
    )];
    answers_1500(
        &[
            TBF,
            DRR,
            ADD_FIRST,
            ADD_SECOND,
            BFIFO,
            LOWER_FIRST,
            RAISE_SECOND,
        ],
        &rows,
    )
}

/// The first class spends the burst, and the drr holds a packet of it. When its quantum is lowered,
/// the class keeps a deficit of 1500, and the second class, which comes behind it, has one of a
/// byte. So packet 11 waits for one that is held, for one of the deficit, and for a grant.
#[test]
fn a_class_lets_its_last_packet_wait_so_long() -> Result<(), Error> {
    const CALLS: &[Call] = &[
        Call::Do(TBF, 0, None),
        Call::Do(DRR, 0, None),
        Call::Do(ADD_FIRST, 0, None),
        Call::Do(ADD_SECOND, 0, None),
        Call::Do(BFIFO, 0, None),
        Call::Do(Ask::Match(2, 1, 1), 0, None),
        Call::Do(Ask::Match(2, 2, 2), 0, None),
        Call::Arrive(1, 1_500, 1, 0, Fate::Kept),
        Call::Arrive(2, 140, 1, 0, Fate::Kept),
        Call::Arrive(3, 1_500, 1, 0, Fate::Kept),
        Call::Arrive(4, 1_500, 1, 0, Fate::Kept),
        Call::Arrive(5, 1, 1, 0, Fate::Kept),
        Call::Arrive(6, 1, 1, 0, Fate::Kept),
        Call::Arrive(10, 1, 2, 0, Fate::Kept),
        Call::Poll(0, 1),
        Call::Poll(0, 2),
        Call::Later(0),
        Call::Do(LOWER_FIRST, 0, None),
        Call::Do(RAISE_SECOND, 0, None),
        Call::Arrive(11, 999, 2, 0, Fate::Kept),
        Call::Poll(12_000_000, 3),
        Call::Poll(24_000_000, 4),
        Call::Poll(24_008_000, 10),
        Call::Poll(24_016_000, 5),
        Call::Later(24_016_000),
        Call::Ready(32_008_000),
        Call::Later(32_007_999),
        Call::Poll(32_008_000, 11),
    ];
    called(CALLS)
}
