//! How long a packet of a fifo waits at most: what a device answers, and packets that wait just so
//! long.
use crate::device_bench::{Ask, Call, called, set_up};
use crate::lines::New;
use qtree::{Cause, Device, Error, Fate, Place, Settings};

/// The bytes, and the nanoseconds with the lateness that is allowed.
pub type Told = (u64, Option<(u64, u64)>);

const LINK: New = New::Shaper(20_000_000, 1_640);

fn told(device: &Device, place: Place) -> Option<Told> {
    let worst = device.worst(place)?;
    Some((worst.bytes, worst.ns.zip(worst.late)))
}

/// Checks what a new device answers of these places after these lines.
fn opened_answers(
    settings: Settings,
    lines: &[Ask],
    rows: &[(Place, Option<Told>)],
) -> Result<(), Error> {
    let mut device = Device::open(settings)?;
    set_up(&mut device, lines)?;
    for (place, expected) in rows {
        assert_eq!(told(&device, *place), *expected, "{place:?}");
    }
    Ok(())
}

/// Checks what a device with an mtu of 1514, whose pfifo has 1000 packets, answers after these
/// lines.
pub fn answers(lines: &[Ask], rows: &[(Place, Option<Told>)]) -> Result<(), Error> {
    let settings = Settings {
        mtu: 1514,
        txqueuelen: 1000,
        recorder: 0,
    };
    opened_answers(settings, lines, rows)
}

/// The same with an mtu of 1500 and 100 packets.
pub fn answers_1500(lines: &[Ask], rows: &[(Place, Option<Told>)]) -> Result<(), Error> {
    let settings = Settings {
        mtu: 1500,
        txqueuelen: 100,
        recorder: 0,
    };
    opened_answers(settings, lines, rows)
}

#[test]
fn a_tbf_alone_pays_for_its_limit() -> Result<(), Error> {
    let rows = [
        (
            Place::Class(1, 1),
            Some((1_000_000, Some((400_000_000, 50_399)))),
        ),
        (Place::Root, None),
        (Place::Top, None),
        (Place::Class(1, 2), None),
        (Place::Class(2, 1), None),
    ];
    answers(&[Ask::Graft(Place::Root, 1, LINK)], &rows)
}

#[test]
fn a_time_is_rounded_up() -> Result<(), Error> {
    let link = New::Shaper(3_000_000, 1_515);
    let rows = [(
        Place::Class(1, 1),
        Some((1_000_000, Some((2_666_666_667, 2_665)))),
    )];
    answers(&[Ask::Graft(Place::Root, 1, link)], &rows)
}

/// Voice before data, below a tbf.
const BANDS: [Ask; 4] = [
    Ask::Graft(Place::Root, 1, LINK),
    Ask::Graft(Place::Class(1, 1), 2, New::Prio(2)),
    Ask::Graft(Place::Class(2, 1), 3, New::Bfifo(3_000)),
    Ask::Graft(Place::Class(2, 2), 4, New::Prio(2)),
];

#[test]
fn only_the_first_band_is_answered() -> Result<(), Error> {
    let rows = [
        (Place::Class(2, 1), Some((3_000, Some((1_200_000, 50_399))))),
        (Place::Class(2, 2), None),
        (Place::Class(1, 1), None),
        (Place::Class(4, 1), None),
    ];
    answers(&BANDS, &rows)
}

#[test]
fn a_limit_of_packets_counts_longest_ones() -> Result<(), Error> {
    let lines = [
        Ask::Graft(Place::Root, 1, New::Prio(2)),
        Ask::Graft(Place::Class(1, 1), 2, New::Prio(2)),
        Ask::Graft(Place::Class(2, 1), 3, New::Packets(2)),
    ];
    let rows = [
        (Place::Class(2, 1), Some((3_028, None))),
        (Place::Class(2, 2), None),
        (Place::Class(1, 2), None),
    ];
    answers(&lines, &rows)
}

#[test]
fn a_new_device_has_a_pfifo() -> Result<(), Error> {
    answers(&[], &[(Place::Root, Some((1_514_000, None)))])
}

#[test]
fn other_qdiscs_are_answered_nothing() -> Result<(), Error> {
    let lines = [
        Ask::Graft(Place::Root, 1, New::Drr),
        Ask::AddClass(1, 1, 1_500),
        Ask::AddClass(1, 2, 1_500),
        Ask::Graft(Place::Class(1, 2), 2, New::FqCodel(10)),
    ];
    answers(&lines, &[(Place::Root, None), (Place::Class(1, 2), None)])
}

#[test]
fn a_burst_without_room_is_answered_nothing() -> Result<(), Error> {
    let link = New::Shaper(20_000_000, 1_514);
    answers(
        &[Ask::Graft(Place::Root, 1, link)],
        &[(Place::Class(1, 1), None)],
    )
}

#[test]
fn a_second_tbf_takes_the_answer_away() -> Result<(), Error> {
    let lines = [
        Ask::Graft(Place::Root, 1, New::Prio(2)),
        Ask::Graft(Place::Class(1, 2), 2, LINK),
    ];
    answers(
        &lines,
        &[(Place::Class(1, 1), None), (Place::Class(2, 1), None)],
    )
}

#[test]
fn a_time_past_the_end_is_answered_nothing() -> Result<(), Error> {
    let lines = [
        Ask::Graft(Place::Root, 1, New::Shaper(1, 1_640)),
        Ask::Graft(Place::Class(1, 1), 2, New::Packets(u32::MAX)),
    ];
    answers(&lines, &[(Place::Class(1, 1), None)])
}

// ---- packets that wait just so long, where the mtu is 1500

/// A tbf of 1 mbit with a burst of 1640 bytes. What it has at first is spent on the packets 1 and
/// 2.
const SHORT: Ask = Ask::Graft(Place::Root, 1, New::Tbf(1_640));

/// Checks the numbers of the class of such a tbf after these lines.
fn answers_short(lines: &[Ask], expected: Told) -> Result<(), Error> {
    answers_1500(lines, &[(Place::Class(1, 1), Some(expected))])
}

#[test]
fn a_tbf_lets_its_last_packet_wait_so_long() -> Result<(), Error> {
    answers_short(&[SHORT], (10_000, Some((80_000_000, 1_119_999))))?;
    const CALLS: &[Call] = &[
        Call::Do(SHORT, 0, None),
        Call::Arrive(1, 1_500, 0, 0, Fate::Kept),
        Call::Arrive(2, 140, 0, 0, Fate::Kept),
        Call::Poll(0, 1),
        Call::Poll(0, 2),
        Call::Arrive(3, 1_000, 0, 0, Fate::Kept),
        Call::Arrive(4, 1_500, 0, 0, Fate::Kept),
        Call::Arrive(5, 1_500, 0, 0, Fate::Kept),
        Call::Arrive(6, 1_500, 0, 0, Fate::Kept),
        Call::Arrive(7, 1_500, 0, 0, Fate::Kept),
        Call::Arrive(8, 1_500, 0, 0, Fate::Kept),
        Call::Arrive(9, 1_500, 0, 0, Fate::Kept),
        Call::Arrive(10, 1, 0, 0, Fate::Lost(Cause::OverLimit)),
        Call::Poll(8_000_000, 3),
        Call::Poll(20_000_000, 4),
        Call::Poll(32_000_000, 5),
        Call::Poll(44_000_000, 6),
        Call::Poll(56_000_000, 7),
        Call::Poll(68_000_000, 8),
        Call::Ready(80_000_000),
        Call::Later(79_999_999),
        Call::Poll(80_000_000, 9),
    ];
    called(CALLS)
}

/// A pfifo of two packets in its class.
const PAIR: Ask = Ask::Graft(Place::Class(1, 1), 2, New::Packets(2));

#[test]
fn a_pfifo_lets_its_last_packet_wait_so_long() -> Result<(), Error> {
    answers_short(&[SHORT, PAIR], (3_000, Some((24_000_000, 1_119_999))))?;
    const CALLS: &[Call] = &[
        Call::Do(SHORT, 0, None),
        Call::Do(PAIR, 0, None),
        Call::Arrive(1, 1_500, 0, 0, Fate::Kept),
        Call::Arrive(2, 140, 0, 0, Fate::Kept),
        Call::Poll(0, 1),
        Call::Poll(0, 2),
        Call::Arrive(3, 1_500, 0, 0, Fate::Kept),
        Call::Arrive(4, 1_500, 0, 0, Fate::Kept),
        Call::Arrive(5, 1, 0, 0, Fate::Lost(Cause::OverLimit)),
        Call::Poll(12_000_000, 3),
        Call::Later(23_999_999),
        Call::Poll(24_000_000, 4),
    ];
    called(CALLS)
}
