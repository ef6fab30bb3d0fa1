//! From which time on a device may give its next packet, as long as nothing arrives and no command
//! comes.
use crate::device_bench::{Ask, Call, called};
use crate::lines::New;
use qtree::{Error, Fate, MOMENT_MAX, Place};

const KEPT: Fate = Fate::Kept;

const SECOND: u64 = 1_000_000_000;

/// 8000 bits a second bring a byte in a millisecond.
const SLOW: New = New::Shaper(8_000, 1_500);

#[test]
fn a_fifo_is_ready_at_once_while_it_has_a_packet() -> Result<(), Error> {
    called(&[
        Call::NeverReady,
        Call::Arrive(1, 1_000, 0, 5, KEPT),
        Call::Ready(5),
        Call::Poll(5, 1),
        Call::NeverReady,
    ])
}

#[test]
fn a_tbf_is_ready_once_its_level_covers_the_head() -> Result<(), Error> {
    called(&[
        Call::Do(Ask::Graft(Place::Root, 1, SLOW), 0, None),
        Call::Arrive(1, 1_000, 0, 0, KEPT),
        Call::Arrive(2, 1_000, 0, 0, KEPT),
        Call::Ready(0),
        Call::Poll(0, 1),
        Call::Later(0),
        Call::Ready(500_000_000),
        Call::Later(499_999_999),
        Call::Ready(500_000_000),
        Call::Poll(500_000_000, 2),
        Call::NeverReady,
    ])
}

/// What an fq_codel would show is known once it was asked: before that its time is the least that
/// it can be.
#[test]
fn a_tbf_waits_for_what_the_first_band_has_at_hand() -> Result<(), Error> {
    called(&[
        Call::Do(Ask::Graft(Place::Root, 1, SLOW), 0, None),
        Call::Do(Ask::Graft(Place::Class(1, 1), 2, New::Prio(2)), 0, None),
        Call::Do(Ask::Graft(Place::Class(2, 1), 3, New::Flows(4)), 0, None),
        Call::Do(Ask::Graft(Place::Class(2, 2), 4, New::Flows(4)), 0, None),
        Call::Arrive(1, 1_000, 0, 0, KEPT),
        Call::Arrive(2, 1_000, 0, 0, KEPT),
        Call::Arrive(3, 1_000, 1, 0, KEPT),
        Call::Poll(0, 1),
        Call::Ready(0),
        Call::Later(0),
        Call::Ready(500_000_000),
        Call::Later(499_999_999),
        Call::Poll(500_000_000, 2),
        Call::Ready(500_000_000),
        Call::Later(500_000_000),
        Call::Ready(1_500_000_000),
        Call::Later(1_499_999_999),
        Call::Poll(1_500_000_000, 3),
        Call::NeverReady,
    ])
}

#[test]
fn a_prio_is_ready_as_soon_as_one_of_its_bands() -> Result<(), Error> {
    called(&[
        Call::Do(Ask::Graft(Place::Root, 1, New::Prio(2)), 0, None),
        Call::Do(Ask::Graft(Place::Class(1, 1), 2, SLOW), 0, None),
        Call::Arrive(1, 1_000, 0, 0, KEPT),
        Call::Arrive(2, 1_000, 0, 0, KEPT),
        Call::Poll(0, 1),
        Call::Later(0),
        Call::Ready(500_000_000),
        Call::Arrive(3, 100, 1, 7, KEPT),
        Call::Ready(7),
        Call::Poll(7, 3),
        Call::Ready(500_000_000),
        Call::Later(499_999_999),
        Call::Poll(500_000_000, 2),
        Call::NeverReady,
    ])
}

#[test]
fn a_drr_is_ready_when_its_front_class_is() -> Result<(), Error> {
    called(&[
        Call::Do(Ask::Graft(Place::Root, 1, New::Drr), 0, None),
        Call::Do(Ask::AddClass(1, 1, 1_500), 0, None),
        Call::Do(Ask::AddClass(1, 2, 1_500), 0, None),
        Call::Do(Ask::Match(1, 1, 1), 0, None),
        Call::Do(Ask::Match(1, 2, 2), 0, None),
        Call::Do(Ask::Graft(Place::Class(1, 1), 2, SLOW), 0, None),
        Call::Arrive(1, 1_000, 1, 0, KEPT),
        Call::Arrive(2, 1_000, 1, 0, KEPT),
        Call::Poll(0, 1),
        Call::Arrive(3, 100, 2, 0, KEPT),
        Call::Later(0),
        Call::Ready(500_000_000),
        Call::Later(499_999_999),
        Call::Poll(500_000_000, 3),
        Call::Ready(500_000_000),
        Call::Poll(500_000_000, 2),
        Call::NeverReady,
    ])
}

/// A front class that has to be granted before it can pay gives way to the next one, which may wait
/// for longer.
#[test]
fn a_drr_is_ready_later_where_its_front_class_cannot_pay() -> Result<(), Error> {
    called(&[
        Call::Do(Ask::Graft(Place::Root, 1, New::Drr), 0, None),
        Call::Do(Ask::AddClass(1, 1, 1_500), 0, None),
        Call::Do(Ask::AddClass(1, 2, 1_500), 0, None),
        Call::Do(Ask::Match(1, 1, 1), 0, None),
        Call::Do(Ask::Match(1, 2, 2), 0, None),
        Call::Do(Ask::Graft(Place::Class(1, 1), 2, SLOW), 0, None),
        Call::Do(
            Ask::Graft(Place::Class(1, 2), 3, New::Shaper(4_000, 1_500)),
            0,
            None,
        ),
        Call::Arrive(1, 1_000, 2, 0, KEPT),
        Call::Poll(0, 1),
        Call::Arrive(2, 1_000, 1, 0, KEPT),
        Call::Arrive(3, 1_000, 1, 0, KEPT),
        Call::Arrive(4, 1_000, 2, 0, KEPT),
        Call::Poll(0, 2),
        Call::Later(0),
        Call::Ready(500_000_000),
        Call::Later(500_000_000),
        Call::Ready(SECOND),
        Call::Later(SECOND - 1),
        Call::Poll(SECOND, 4),
        Call::Ready(SECOND),
        Call::Poll(SECOND, 3),
        Call::NeverReady,
    ])
}

fn wait_for_both(outer: u64, inner: u64) -> Result<(), Error> {
    called(&[
        Call::Do(
            Ask::Graft(Place::Root, 1, New::Shaper(outer, 1_500)),
            0,
            None,
        ),
        Call::Do(
            Ask::Graft(Place::Class(1, 1), 2, New::Shaper(inner, 1_500)),
            0,
            None,
        ),
        Call::Arrive(1, 1_000, 0, 0, KEPT),
        Call::Arrive(2, 1_000, 0, 0, KEPT),
        Call::Poll(0, 1),
        Call::Later(0),
        Call::Ready(SECOND),
        Call::Later(SECOND - 1),
        Call::Poll(SECOND, 2),
        Call::NeverReady,
    ])
}

/// The later of the two times counts, whichever bucket has it.
#[test]
fn of_two_tbfs_the_later_one_decides() -> Result<(), Error> {
    wait_for_both(8_000, 4_000)?;
    wait_for_both(4_000, 8_000)
}

#[test]
fn a_packet_as_long_as_the_burst_waits_until_the_bucket_is_full() -> Result<(), Error> {
    called(&[
        Call::Do(
            Ask::Graft(Place::Root, 1, New::Shaper(8_000, 1_000)),
            0,
            None,
        ),
        Call::Arrive(1, 1_000, 0, 0, KEPT),
        Call::Arrive(2, 1_000, 0, 0, KEPT),
        Call::Poll(0, 1),
        Call::Later(0),
        Call::Ready(SECOND),
        Call::Later(SECOND - 1),
        Call::Poll(SECOND, 2),
    ])
}

#[test]
fn no_moment_is_past_the_latest_one() -> Result<(), Error> {
    called(&[
        Call::Do(Ask::Graft(Place::Root, 1, SLOW), 0, None),
        Call::Arrive(1, 1_000, 0, 0, KEPT),
        Call::Arrive(2, 1_000, 0, 0, KEPT),
        Call::Poll(MOMENT_MAX - 1, 1),
        Call::Later(MOMENT_MAX - 1),
        Call::NeverReady,
        Call::Later(MOMENT_MAX),
        Call::NeverReady,
    ])
}
