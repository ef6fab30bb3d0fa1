//! By when the packet that was queued last in a fifo has left, or one that comes there next: what a
//! device answers, and packets that leave just then.
use crate::device_bench::{Ask, set_up};
use crate::lines::{New, packet};
use qtree::{Device, Error, Fate, Place, Polled, Settings};

/// The bytes, and the nanosecond with the lateness that is allowed.
type Told = (u64, Option<(u64, u64)>);

/// What happens in a play on a device, or is asked of it, where no place is named of the fifo 1:1.
#[derive(Clone, Copy, Debug)]
enum Step {
    /// The line is done.
    Does(Ask),
    /// The packet of this number, length and priority comes at this nanosecond.
    Comes(u64, u16, u8, u64),
    /// A poll at this nanosecond gives a packet.
    Leaves(u64),
    /// It gives none, though one is queued.
    Stays(u64),
    /// What is answered of a packet of this length that comes next, or with 0 of the one that was
    /// queued last: bytes, and the nanosecond.
    Tells(u16, u64, u64),
    /// The same of this place.
    TellsOf(Place, u16, Option<Told>),
}

/// How late polls may be below a tbf of 1 mbit with a burst of 1640 bytes, where the mtu is 1500.
const LATE: u64 = 1_119_999;

impl Step {
    /// Fails where the device answers something else; `name` says which step it is.
    fn take(self, device: &mut Device, name: &str) -> Result<(), Error> {
        match self {
            Step::Does(ask) => set_up(device, &[ask])?,
            Step::Comes(number, len, prio, ns) => {
                let fate = device.arrive(&packet(number, len, prio), ns)?;
                assert_eq!(fate, Fate::Kept, "{name}");
            }
            Step::Leaves(ns) => {
                let polled = device.poll(ns)?;
                assert!(matches!(polled, Polled::Packet(_)), "{name}: {polled:?}");
            }
            Step::Stays(ns) => assert_eq!(device.poll(ns)?, Polled::Later, "{name}"),
            Step::Tells(len, bytes, ns) => {
                let expected = Some((bytes, Some((ns, LATE))));
                assert_eq!(told(device, Place::Class(1, 1), len), expected, "{name}");
            }
            Step::TellsOf(place, len, expected) => {
                assert_eq!(told(device, place, len), expected, "{name}");
            }
        }
        Ok(())
    }
}

fn told(device: &Device, place: Place, len: u16) -> Option<Told> {
    let latest = device.latest(place, len)?;
    Some((latest.bytes, latest.at.zip(latest.late)))
}

/// A tbf of 1 mbit with a burst of 1640 bytes and a limit of 10,000.
const SHAPED: Step = Step::Does(Ask::Graft(Place::Root, 1, New::Tbf(1_640)));

const FULL: &[Step] = &[SHAPED];

/// What empties its bucket at time 0.
const SPENT: &[Step] = &[
    SHAPED,
    Step::Comes(1, 1_500, 0, 0),
    Step::Comes(2, 140, 0, 0),
    Step::Leaves(0),
    Step::Leaves(0),
];

/// These steps happen on a new device, behind the first ones.
fn play(first: &[Step], then: &[Step]) -> Result<(), Error> {
    let mut device = Device::open(Settings {
        mtu: 1500,
        txqueuelen: 100,
        recorder: 0,
    })?;
    for (i, step) in first.iter().chain(then).enumerate() {
        step.take(&mut device, &format!("step {i}, {step:?}"))?;
    }
    Ok(())
}

/// The same on a new device with such a tbf, whose bucket is full at first.
fn full(steps: &[Step]) -> Result<(), Error> {
    play(FULL, steps)
}

/// The same where it is empty.
fn spent(steps: &[Step]) -> Result<(), Error> {
    play(SPENT, steps)
}

#[test]
fn an_empty_fifo_has_left_at_once() -> Result<(), Error> {
    full(&[Step::Tells(0, 0, 0)])
}

#[test]
fn no_fifo_is_at_the_root() -> Result<(), Error> {
    full(&[Step::TellsOf(Place::Root, 0, None)])
}

#[test]
fn a_full_bucket_counts_for_what_late_polls_leave() -> Result<(), Error> {
    full(&[
        Step::Comes(1, 1_500, 0, 0),
        Step::Comes(2, 1_000, 0, 0),
        Step::Tells(0, 2_500, 7_999_999),
    ])
}

#[test]
fn a_packet_leaves_at_the_time_that_is_answered() -> Result<(), Error> {
    spent(&[
        Step::Comes(3, 1_000, 0, 0),
        Step::Tells(0, 1_000, 8_000_000),
        Step::Stays(7_999_999),
        Step::Tells(0, 1_000, 8_000_000),
        Step::Leaves(8_000_000),
        Step::Tells(0, 0, 8_000_000),
    ])
}

#[test]
fn a_packet_leaves_when_was_answered_before_it_came() -> Result<(), Error> {
    spent(&[
        Step::Comes(3, 500, 0, 0),
        Step::Tells(1_001, 1_501, 12_008_000),
        Step::Comes(4, 1_001, 0, 0),
        Step::Tells(0, 1_501, 12_008_000),
        Step::Leaves(4_000_000),
        Step::Stays(12_007_999),
        Step::Tells(0, 1_001, 12_008_000),
        Step::Leaves(12_008_000),
        Step::Tells(0, 0, 12_008_000),
    ])
}

#[test]
fn an_arrival_that_comes_later_leaves_no_later_for_it() -> Result<(), Error> {
    spent(&[
        Step::Tells(1_000, 1_000, 8_000_000),
        Step::Comes(3, 1_000, 0, 3_000_000),
        Step::Tells(0, 1_000, 8_000_000),
    ])
}

#[test]
fn an_arrival_after_the_answered_time_leaves_as_it_comes() -> Result<(), Error> {
    spent(&[
        Step::Tells(1_500, 1_500, 12_000_000),
        Step::Comes(3, 1_500, 0, 20_000_000),
        Step::Tells(0, 1_500, 20_000_000),
        Step::Leaves(20_000_000),
        Step::Tells(0, 0, 20_000_000),
    ])
}

#[test]
fn an_arrival_at_a_full_bucket_leaves_as_much_later_as_it_comes() -> Result<(), Error> {
    full(&[
        Step::Comes(1, 1_500, 0, 0),
        Step::Tells(1_000, 2_500, 7_999_999),
        Step::Comes(2, 1_000, 0, 5_000_000),
        Step::Tells(0, 2_500, 12_999_999),
    ])
}

#[test]
fn without_a_tbf_there_are_bytes_alone() -> Result<(), Error> {
    play(
        &[Step::Does(Ask::Graft(Place::Root, 1, New::Prio(2)))],
        &[
            Step::Comes(1, 700, 0, 0),
            Step::Comes(2, 900, 1, 0),
            Step::TellsOf(Place::Class(1, 1), 0, Some((700, None))),
            Step::TellsOf(Place::Class(1, 1), 65_535, Some((66_235, None))),
            Step::TellsOf(Place::Class(1, 2), 0, None),
        ],
    )
}

// ---- a class of a drr

/// What makes the classes of a drr 2: which get 3000 and 1500 of every 4500 bytes.
const ADD_FIRST: Step = Step::Does(Ask::AddClass(2, 1, 3_000));

const ADD_SECOND: Step = Step::Does(Ask::AddClass(2, 2, 1_500));

const TO_FIRST: Step = Step::Does(Ask::Match(2, 1, 1));

const TO_SECOND: Step = Step::Does(Ask::Match(2, 2, 2));

const FIRST: Place = Place::Class(2, 1);

const SECOND: Place = Place::Class(2, 2);

/// Nothing waits in the class: it is last in the list as a packet comes, with a deficit of 3000.
const WAKES_A_CLASS: &[Step] = &[
    Step::Does(Ask::Graft(Place::Root, 2, New::Drr)),
    ADD_FIRST,
    ADD_SECOND,
    TO_FIRST,
    TO_SECOND,
    Step::TellsOf(FIRST, 0, Some((0, None))),
    Step::Comes(1, 700, 2, 0),
    Step::TellsOf(FIRST, 100, Some((1_600, None))),
    Step::Comes(2, 100, 1, 0),
    Step::TellsOf(FIRST, 0, Some((1_600, None))),
];

#[test]
fn a_packet_that_wakes_its_class_waits_for_the_deficit_before_it() -> Result<(), Error> {
    play(WAKES_A_CLASS, &[])
}

/// The last byte needs a grant, in which the other class may send its quantum.
#[test]
fn a_byte_above_the_deficit_waits_for_a_grant() -> Result<(), Error> {
    play(
        WAKES_A_CLASS,
        &[
            Step::Comes(3, 1_500, 1, 0),
            Step::TellsOf(FIRST, 1_400, Some((4_500, None))),
            Step::TellsOf(FIRST, 1_401, Some((6_001, None))),
            Step::TellsOf(SECOND, 0, Some((700, None))),
            Step::Leaves(0),
            Step::TellsOf(FIRST, 0, Some((1_600, None))),
        ],
    )
}

/// The drr holds a packet of 1000 bytes of the second class, which has nothing else.
#[test]
fn a_class_waits_for_the_packet_that_its_drr_holds() -> Result<(), Error> {
    full(&[
        Step::Does(Ask::Graft(Place::Class(1, 1), 2, New::Drr)),
        ADD_FIRST,
        ADD_SECOND,
        TO_FIRST,
        TO_SECOND,
        Step::Comes(1, 1_500, 2, 0),
        Step::Comes(2, 1_000, 2, 0),
        Step::Leaves(0),
        Step::Stays(0),
        Step::TellsOf(FIRST, 800, Some((1_800, Some((13_280_000, LATE))))),
        Step::Comes(3, 800, 1, 0),
        Step::TellsOf(FIRST, 0, Some((1_800, Some((13_280_000, LATE))))),
        Step::Leaves(6_880_000),
        Step::TellsOf(FIRST, 0, Some((800, Some((13_280_000, LATE))))),
        Step::Stays(13_279_999),
        Step::Leaves(13_280_000),
    ])
}
