//! A tree of one pfifo: packets that arrive, are refused and taken.
use crate::bench::{Call, KEPT, play_small};
use qtree::{Cause, Error, Fate, Place};

#[test]
fn a_pfifo_of_two() -> Result<(), Error> {
    play_small(
        2,
        &[
            Call::Put(1, 100, 0, KEPT),
            Call::Put(2, 1501, 0, Fate::Lost(Cause::TooLong)),
            Call::Put(3, 300, 0, KEPT),
            Call::Put(4, 400, 0, Fate::Lost(Cause::OverLimit)),
            Call::Take(1),
            Call::Take(3),
            Call::Take(0),
            Call::Losses(2),
        ],
    )
}

#[test]
fn a_packet_longer_than_the_mtu_never_comes_to_the_root() -> Result<(), Error> {
    play_small(
        2,
        &[
            Call::Put(1, 100, 0, KEPT),
            Call::Put(2, 1501, 0, Fate::Lost(Cause::TooLong)),
            Call::Put(3, 300, 0, KEPT),
            Call::Put(4, 400, 0, Fate::Lost(Cause::OverLimit)),
            Call::Counts(Place::Top, [4, 0, 2, 0, 2]),
            Call::Bytes(Place::Top, [2301, 0, 1901, 0, 400]),
            Call::Totals,
            Call::Counts(Place::Root, [3, 0, 1, 0, 2]),
            Call::Bytes(Place::Root, [800, 0, 400, 0, 400]),
        ],
    )
}

#[test]
fn a_pfifo_has_no_class() -> Result<(), Error> {
    play_small(2, &[Call::Absent(Place::Class(1, 1))])
}
