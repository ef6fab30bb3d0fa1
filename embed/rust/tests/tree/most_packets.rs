//! How many packets a device can hold at most.
use crate::device_bench::{Ask, Call, called, called_small};
use crate::lines::New;
use qtree::{Cause, Error, Fate, Place};

const KEPT: Fate = Fate::Kept;

/// An implicit leaf is a pfifo of 100 packets, and a tbf has a bfifo of 10,000 bytes, each of which
/// may be a packet.
#[test]
fn limits_are_summed_with_what_may_be_held() -> Result<(), Error> {
    called(&[
        Call::Most(100),
        Call::Do(Ask::Graft(Place::Root, 1, New::Tbf(1_500)), 0, None),
        Call::Most(1 + 10_000),
        Call::Do(Ask::Graft(Place::Class(1, 1), 2, New::Prio(3)), 0, None),
        Call::Most(1 + 300),
        Call::Do(Ask::Graft(Place::Class(2, 1), 3, New::FqCodel(50)), 0, None),
        Call::Most(1 + 51 + 200),
        Call::Do(
            Ask::Graft(Place::Class(2, 2), 4, New::Bfifo(3_000)),
            0,
            None,
        ),
        Call::Most(1 + 51 + 3_000 + 100),
        Call::Do(Ask::Graft(Place::Class(2, 3), 5, New::Drr), 0, None),
        Call::Most(1 + 51 + 3_000 + 1),
        Call::Do(Ask::AddClass(5, 1, 0), 0, None),
        Call::Most(1 + 51 + 3_000 + 1 + 100),
    ])
}

#[test]
fn what_is_queued_above_a_lower_limit_counts() -> Result<(), Error> {
    called_small(
        3,
        &[
            Call::Do(Ask::Graft(Place::Root, 1, New::Packets(3)), 0, None),
            Call::Arrive(1, 100, 0, 0, KEPT),
            Call::Arrive(2, 100, 0, 0, KEPT),
            Call::Arrive(3, 100, 0, 0, KEPT),
            Call::Most(3),
            Call::Do(Ask::Change(1, New::Packets(1)), 0, None),
            Call::Most(3),
            Call::Arrive(4, 100, 0, 0, Fate::Lost(Cause::OverLimit)),
            Call::Poll(0, 1),
            Call::Most(2),
            Call::Poll(0, 2),
            Call::Most(1),
            Call::Poll(0, 3),
            Call::Most(1),
        ],
    )
}

/// An fq_codel of two packets that holds one has three queued. It holds packet 2, which waits for
/// the tbf above: that has spent its burst on packet 1.
#[test]
fn a_held_packet_is_queued_beside_the_limit() -> Result<(), Error> {
    called(&[
        Call::Do(Ask::Graft(Place::Root, 1, New::Tbf(1_500)), 0, None),
        Call::Do(Ask::Graft(Place::Class(1, 1), 2, New::FqCodel(2)), 0, None),
        Call::Most(1 + 3),
        Call::Arrive(1, 1_500, 0, 0, KEPT),
        Call::Poll(0, 1),
        Call::Arrive(2, 100, 0, 0, KEPT),
        Call::Later(0),
        Call::Arrive(3, 100, 0, 0, KEPT),
        Call::Arrive(4, 100, 0, 0, KEPT),
        Call::Counts(Place::Class(1, 1), [4, 1, 0, 0, 3]),
        Call::Most(1 + 3),
    ])
}

#[test]
fn a_device_answers_what_its_tree_does() -> Result<(), Error> {
    called(&[
        Call::Most(100),
        Call::Do(Ask::Graft(Place::Root, 1, New::Tbf(1_500)), 0, None),
        Call::Do(Ask::Graft(Place::Class(1, 1), 2, New::FqCodel(50)), 0, None),
        Call::Most(1 + 51),
    ])
}
