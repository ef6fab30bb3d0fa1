//! A device of one pfifo: packets that arrive, are polled and reaped, and the recorder.
use crate::device_bench::{Call, called_small};
use qtree::{Cause, Error, Fate};

#[test]
fn polls_reaps_and_records() -> Result<(), Error> {
    called_small(
        2,
        &[
            Call::Arrive(1, 100, 0, 5, Fate::Kept),
            Call::Arrive(2, 1501, 0, 3, Fate::Lost(Cause::TooLong)),
            Call::Arrive(3, 300, 0, 7, Fate::Kept),
            Call::Arrive(4, 400, 0, 7, Fate::Lost(Cause::OverLimit)),
            Call::Events(3, 4),
            Call::RecordedArrival(1, 2, 1501, 0, 5),
            Call::Reap(2, Cause::TooLong),
            Call::Poll(9, 1),
            Call::Reap(4, Cause::OverLimit),
            Call::ReapNone,
            Call::Poll(0, 3),
            Call::Poll(9, 0),
            Call::Events(3, 7),
        ],
    )
}

/// Fifty packets are all kept, and then given in order.
#[test]
fn fifty_packets_arrive_and_leave() -> Result<(), Error> {
    let arrivals = (1..51).map(|number| Call::Arrive(number, 100, 0, number, Fate::Kept));
    let polls = (1..51).map(|number| Call::Poll(50, number));
    let calls: Vec<Call> = arrivals.chain(polls).collect();
    called_small(50, &calls)
}
