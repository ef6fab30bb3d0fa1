//! Plays in which a law of service is met exactly, or in which what is promised to a customer is
//! counted.
use crate::device_bench::{Ask, set_up};
use crate::lines::New;
use crate::script::{Step, given, go_on, opened};
use qtree::{Device, Error, Fate, Packet, Place};

/// A class of quantum 1000 that stays backlogged is granted once each time, and the other sends its
/// own quantum of 500 for each grant, however often it becomes active with a packet as long as its
/// quantum and inactive again: no byte less than `class_against_any` lets it.
#[test]
fn a_class_that_wakes_and_sleeps_gets_its_quantum_each_round() -> Result<(), Error> {
    let first = [
        Step::Tc(Ask::Graft(Place::Root, 1, New::Drr)),
        Step::Tc(Ask::AddClass(1, 1, 1000)),
        Step::Tc(Ask::AddClass(1, 2, 500)),
        Step::Tc(Ask::Match(1, 1, 1)),
        Step::Tc(Ask::Match(1, 2, 2)),
        Step::Packets(12, 500, 1),
    ];
    let round = [Step::Packets(1, 500, 2), Step::Polls(3, [1000, 500])];
    go_on(&mut opened()?, &[&first[..], &round.repeat(5)].concat())
}

/// A flow that stays backlogged with a quantum of 1000 is granted once each time, and the other
/// gives two quanta less a byte for each grant, near twice the share: it joins and gives its
/// quantum, is granted another, leaves a byte of that when its turn comes again, and so leaves the
/// lists when it is visited empty. At last it joins again, leaves a byte of credit and then has a
/// longest packet. That is just what `flow_against_any` lets it give, and between the last grant
/// and the next just what `no_flow_starves` does.
#[test]
fn a_flow_that_leaves_a_byte_gets_near_twice_the_share() -> Result<(), Error> {
    let first = [
        Step::Tc(Ask::Graft(Place::Root, 1, New::Fair(1000))),
        Step::Packets(8, 1000, 1),
        Step::Polls(2, [2000, 0]),
    ];
    let round = [
        Step::Packets(1, 1000, 2),
        Step::Polls(1, [0, 1000]),
        Step::Packets(1, 999, 2),
        Step::Polls(2, [1000, 999]),
    ];
    let last = [
        Step::Packets(1, 999, 2),
        Step::Packets(1, 1514, 2),
        Step::Polls(2, [0, 1000 + 1514 - 1]),
        Step::Polls(1, [1000, 0]),
    ];
    go_on(
        &mut opened()?,
        &[&first[..], &round.repeat(4), &last].concat(),
    )
}

/// A packet of the flow with this hash arrives.
fn arrive(device: &mut Device, hash: u32, len: u16) -> Result<(), Error> {
    let packet = Packet::builder(len)
        .addresses(hash.to_be_bytes().into(), [0; 4].into())
        .proto(17)
        .hash(hash)
        .build()?;
    assert_eq!(device.arrive(&packet, 0)?, Fate::Kept, "flow {hash}");
    Ok(())
}

/// The bytes that so many polls give, each of them.
fn polls(device: &mut Device, count: usize) -> Result<Vec<u64>, Error> {
    (0..count).map(|_| Ok(given(device.poll(0)?))).collect()
}

/// The first flow that begins gives a quantum and a longest packet less a byte, which is the most
/// that `new_flow_first` lets it give. The lookup, which came just behind it, goes next, before all
/// old flows.
#[test]
fn a_name_lookup_goes_before_a_hundred_downloads() -> Result<(), Error> {
    let mut device = opened()?;
    set_up(&mut device, &[Ask::Graft(Place::Root, 1, New::Fair(1514))])?;
    for flow in 1..=100 {
        arrive(&mut device, flow, 1514)?;
        arrive(&mut device, flow, 1514)?;
    }
    // All downloads have given a quantum and were granted another, so that they are old, with a
    // packet each.
    polls(&mut device, 101)?;
    arrive(&mut device, 101, 1513)?;
    arrive(&mut device, 101, 1514)?;
    arrive(&mut device, 102, 80)?;
    assert_eq!(polls(&mut device, 4)?, [1513, 1514, 80, 1514]);
    Ok(())
}
