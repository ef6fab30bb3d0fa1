//! What a play sends of each class of a drr, and of each flow of an fq_codel, while they stay
//! backlogged: sums of lengths, and what quanta, deficits and credits make of them. A priority is a
//! class or a flow. And what a tbf sends over each interval of a play.
use crate::device_bench::{Ask, set_up};
use crate::lines::{New, packet};
use crate::script::{Step, given, go_on, opened};
use qtree::{Error, Fate, Place};

/// These steps happen on a new device.
fn play(steps: &[Step]) -> Result<(), Error> {
    go_on(&mut opened()?, steps)
}

/// The first class has two grants, and a deficit of 1000 at both ends; the second has one, and uses
/// the quantum that it began with.
#[test]
fn classes_send_as_their_quanta() -> Result<(), Error> {
    play(&[
        Step::Tc(Ask::Graft(Place::Root, 1, New::Drr)),
        Step::Tc(Ask::AddClass(1, 1, 1000)),
        Step::Tc(Ask::AddClass(1, 2, 500)),
        Step::Tc(Ask::Match(1, 1, 1)),
        Step::Tc(Ask::Match(1, 2, 2)),
        Step::Packets(10, 500, 1),
        Step::Packets(10, 500, 2),
        Step::Polls(6, [2 * 1000, 500 + 500]),
    ])
}

/// Another quantum begins another interval. At 100 the first class has five grants and a deficit of
/// 1000, of which 500 are left; the second has five of its own.
#[test]
fn a_class_sends_as_its_new_quantum() -> Result<(), Error> {
    play(&[
        Step::Tc(Ask::Graft(Place::Root, 1, New::Drr)),
        Step::Tc(Ask::AddClass(1, 1, 1000)),
        Step::Tc(Ask::AddClass(1, 2, 500)),
        Step::Tc(Ask::Match(1, 1, 1)),
        Step::Tc(Ask::Match(1, 2, 2)),
        Step::Packets(10, 500, 1),
        Step::Packets(10, 500, 2),
        Step::Polls(6, [2 * 1000, 500 + 500]),
        Step::Tc(Ask::ChangeClass(1, 1, 100)),
        Step::Polls(7, [5 * 100 + 1000 - 500, 5 * 500]),
    ])
}

/// A flow with credits of 1514 is granted once, and has 1028 left; the other gives its packet of
/// 100 bytes.
#[test]
fn a_flow_gives_its_grants_and_credits() -> Result<(), Error> {
    play(&[
        Step::Tc(Ask::Graft(Place::Root, 1, New::Flows(4))),
        Step::Packets(3, 1000, 1),
        Step::Packets(1, 100, 2),
        Step::Polls(3, [1514 + 1514 - 1028, 100]),
    ])
}

/// The polls of a tbf whose packets wait from the start: the time of each, and the bytes that it
/// gives.
fn shaped(
    rate: u64,
    burst: u32,
    lens: &[u16],
    times: impl IntoIterator<Item = u64>,
) -> Result<Vec<(u64, u64)>, Error> {
    let mut device = opened()?;
    set_up(
        &mut device,
        &[Ask::Graft(Place::Root, 1, New::Shaper(rate, burst))],
    )?;
    for &len in lens {
        assert_eq!(device.arrive(&packet(0, len, 1), 0)?, Fate::Kept, "{len}");
    }
    times
        .into_iter()
        .map(|ns| Ok((ns, given(device.poll(ns)?))))
        .collect()
}

// A bucket of 2000 bytes that gets 8000 bits, which are 1000 bytes, a second.
const BURST: u32 = 2_000;

const RATE: u64 = 8_000;

/// The nanoseconds of the polls: five at the start, one each tenth of a second up to the fifth
/// second, and five at the twentieth.
fn poll_times() -> impl Iterator<Item = u64> {
    let tenths = [0; 5].into_iter().chain(1..=50).chain([200; 5]);
    tenths.map(|tenth: u64| tenth * 100_000_000)
}

/// The polls of each interval give no more than the burst and what the rate brings from its first
/// to its last.
fn assert_within(polls: &[(u64, u64)]) {
    for (nth, (first, _)) in polls.iter().enumerate() {
        let mut spent = 0;
        for (last, bytes) in &polls[nth..] {
            spent += bytes;
            let most = u64::from(BURST) * 8_000_000_000 + RATE * (last - first);
            assert!(
                spent * 8_000_000_000 <= most,
                "{spent} bytes from {first} to {last} ns"
            );
        }
    }
}

/// Packets of these lengths, each of them four times, are polled: so much is given in all, and no
/// more than may be over each interval.
fn assert_spent(lens: &[u16], all: u64) -> Result<(), Error> {
    let polls = shaped(RATE, BURST, &lens.repeat(4), poll_times())?;
    assert_eq!(polls.len(), 60);
    let sum: u64 = polls.iter().map(|(_, bytes)| bytes).sum();
    assert_eq!(sum, all, "{lens:?}");
    assert_within(&polls);
    Ok(())
}

/// In five seconds 2000 + 5 * 1000 bytes can be spent, and a burst more once the bucket is full
/// again: all of them where packets have 500 bytes, and else the longest beginnings.
#[test]
fn a_tbf_spends_its_burst_and_what_the_rate_brings() -> Result<(), Error> {
    assert_spent(&[500, 500, 500, 500, 500], 7000 + 2000)?;
    assert_spent(&[1500, 64, 700, 1400, 300], 3964 + 2264 + 1400 + 300)
}

/// A bucket of 1000 bytes gets one each nanosecond at 8 gbit a second: the burst and what the rate
/// brings in 1000 ns are the two packets, and the second one goes at no poll before, also not at
/// one of an earlier time than the last.
#[test]
fn a_tbf_spends_to_the_nanosecond() -> Result<(), Error> {
    let polls = shaped(8_000_000_000, 1_000, &[1000, 1000], [0, 999, 5, 1000])?;
    assert_eq!(polls, [(0, 1000), (999, 0), (5, 0), (1000, 1000)]);
    Ok(())
}
