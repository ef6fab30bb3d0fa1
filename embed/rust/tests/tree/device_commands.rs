//! Commands on a device: what is refused, lost and recorded.
use crate::device_bench::{Ask, Call, called};
use crate::lines::New;
use qtree::{Cause, Error, Fate, Place, Refusal};

const KEPT: Fate = Fate::Kept;

/// What is refused names the time 9, which does not count: the next event is at 3.
#[test]
fn the_first_refusal_is_told_and_nothing_changes() -> Result<(), Error> {
    called(&[
        Call::Do(Ask::Graft(Place::Root, 1, New::Prio(2)), 1, None),
        Call::Arrive(1, 100, 0, 2, KEPT),
        Call::Do(
            Ask::Graft(Place::Class(9, 1), 1, New::Pfifo),
            9,
            Some(Refusal::NoParent),
        ),
        Call::Do(
            Ask::Graft(Place::Root, 1, New::Pfifo),
            9,
            Some(Refusal::Exists),
        ),
        Call::Do(
            Ask::Graft(Place::Class(1, 3), 1, New::Pfifo),
            9,
            Some(Refusal::NoClass),
        ),
        Call::Do(
            Ask::Graft(Place::Class(1, 1), 1, New::Prio(3)),
            9,
            Some(Refusal::HandleTaken),
        ),
        Call::Do(
            Ask::Change(1, New::Tbf(1500)),
            9,
            Some(Refusal::CannotChange),
        ),
        Call::Do(Ask::Prune(3), 9, Some(Refusal::NoQdisc)),
        Call::Do(Ask::AddClass(1, 1, 0), 9, Some(Refusal::CannotChange)),
        Call::Do(Ask::ChangeClass(1, 1, 0), 9, Some(Refusal::CannotChange)),
        Call::Do(Ask::DelClass(1, 1), 9, Some(Refusal::CannotChange)),
        Call::Do(Ask::Match(1, 3, 7), 9, Some(Refusal::NoClass)),
        Call::Do(Ask::Unfilter(1), 9, Some(Refusal::NoFilter)),
        Call::Events(2, 2),
        Call::ReapNone,
        Call::Do(Ask::Match(1, 2, 7), 3, None),
        Call::Recorded(2, Ask::Match(1, 2, 7), 3),
        Call::Poll(3, 1),
        Call::Poll(3, 0),
    ])
}

#[test]
fn what_a_removal_loses_is_reaped_oldest_first() -> Result<(), Error> {
    called(&[
        Call::Do(Ask::Graft(Place::Root, 1, New::Prio(2)), 0, None),
        Call::Do(Ask::Graft(Place::Class(1, 1), 2, New::Packets(2)), 0, None),
        Call::Arrive(1, 100, 0, 1, KEPT),
        Call::Arrive(2, 1501, 0, 1, Fate::Lost(Cause::TooLong)),
        Call::Arrive(3, 100, 1, 1, KEPT),
        Call::Arrive(4, 100, 0, 1, KEPT),
        Call::Arrive(5, 100, 0, 1, Fate::Lost(Cause::OverLimit)),
        Call::Do(Ask::Prune(2), 2, None),
        Call::Counts(Place::Top, [5, 0, 2, 2, 1]),
        Call::Counts(Place::Class(1, 1), [0, 0, 0, 0, 0]),
        Call::Reap(2, Cause::TooLong),
        Call::Do(Ask::Prune(1), 3, None),
        Call::Counts(Place::Top, [5, 0, 2, 3, 0]),
        Call::Reap(5, Cause::OverLimit),
        Call::Reap(1, Cause::Purged),
        Call::Reap(4, Cause::Purged),
        Call::Reap(3, Cause::Purged),
        Call::ReapNone,
        Call::Poll(3, 0),
        Call::Events(3, 10),
    ])
}

#[test]
fn a_command_is_recorded_at_the_moment_that_counted() -> Result<(), Error> {
    called(&[
        Call::Poll(7, 0),
        Call::Do(Ask::Graft(Place::Root, 1, New::Prio(2)), 3, None),
        Call::Recorded(1, Ask::Graft(Place::Root, 1, New::Prio(2)), 7),
        Call::Do(Ask::Prune(2), 50, Some(Refusal::NoQdisc)),
        Call::Do(Ask::Prune(1), 8, None),
        Call::Recorded(2, Ask::Prune(1), 8),
        Call::Do(Ask::Graft(Place::Root, 1, New::Pfifo), 9, None),
        Call::Events(3, 4),
    ])
}
