//! What a class is promised. The numbers are those of docs/SERVICE.md, for an mtu of 1514 and 20
//! Mbit/s.
use crate::device_bench::{Ask, set_up};
use crate::lines::New;
use qtree::{Device, Error, Place, Service, Settings};

/// A rate, its part in bits a second, and the slack in bytes.
type Told = (Option<u64>, Option<u64>, u64);

const LINK: New = New::Shaper(20_000_000, 1_515);

const MBIT: Option<u64> = Some(20_000_000);

/// A new device after these lines.
fn opened(lines: &[Ask]) -> Result<Device, Error> {
    let mut device = Device::open(Settings {
        mtu: 1514,
        txqueuelen: 1000,
        recorder: 0,
    })?;
    set_up(&mut device, lines)?;
    Ok(device)
}

fn told(service: Service) -> Told {
    (service.link, service.rate, service.slack)
}

/// Checks what a device answers of these places after these lines.
fn promises(lines: &[Ask], rows: &[(Place, Option<Told>)]) -> Result<(), Error> {
    let device = opened(lines)?;
    for (place, expected) in rows {
        assert_eq!(device.service(*place).map(told), *expected, "{place:?}");
    }
    Ok(())
}

/// Two customers, the first of whom shares its part among two of its own.
fn customers(link: New) -> [Ask; 8] {
    [
        Ask::Graft(Place::Root, 1, link),
        Ask::Graft(Place::Class(1, 1), 2, New::Drr),
        Ask::AddClass(2, 1, 3_000),
        Ask::AddClass(2, 2, 1_500),
        Ask::Graft(Place::Class(2, 1), 3, New::Drr),
        Ask::AddClass(3, 1, 1_514),
        Ask::AddClass(3, 2, 1_514),
        Ask::Graft(Place::Class(2, 2), 4, New::Prio(2)),
    ]
}

#[test]
fn two_customers_are_promised_their_parts() -> Result<(), Error> {
    promises(
        &customers(LINK),
        &[
            (Place::Class(2, 1), Some((MBIT, Some(13_333_333), 5_532))),
            (Place::Class(2, 2), Some((MBIT, Some(6_666_666), 4_523))),
            (Place::Class(3, 2), Some((MBIT, Some(6_666_666), 6_550))),
        ],
    )
}

/// Two classes of a drr at the root, the second of which has a tbf.
const SHARED: [Ask; 4] = [
    Ask::Graft(Place::Root, 2, New::Drr),
    Ask::AddClass(2, 1, 3_000),
    Ask::AddClass(2, 2, 1_500),
    Ask::Graft(Place::Class(2, 2), 3, LINK),
];

#[test]
fn a_drr_at_the_root_promises_a_part_of_what_it_sends() -> Result<(), Error> {
    promises(
        &SHARED,
        &[
            (Place::Class(2, 1), Some((None, None, 3_513))),
            (Place::Class(3, 1), None),
        ],
    )
}

/// The part of a billion bytes is rounded down.
#[test]
fn a_class_of_a_drr_at_the_root_is_promised_its_part() -> Result<(), Error> {
    let device = opened(&SHARED)?;
    let service = device.service(Place::Class(2, 1));
    assert_eq!(service.map(|it| it.part), Some(666_666_666));
    Ok(())
}

#[test]
fn only_classes_of_drrs_below_a_tbf_are_promised_something() -> Result<(), Error> {
    promises(
        &customers(LINK),
        &[
            (Place::Top, None),
            (Place::Root, None),
            (Place::Class(1, 1), None),
            (Place::Class(2, 3), None),
            (Place::Class(4, 1), None),
            (Place::Class(9, 1), None),
        ],
    )
}

#[test]
fn a_burst_without_room_for_a_longest_packet_promises_nothing() -> Result<(), Error> {
    promises(
        &customers(New::Shaper(20_000_000, 1_514)),
        &[(Place::Class(2, 1), None)],
    )
}

/// A tbf is in the class of the second customer.
#[test]
fn a_second_tbf_takes_the_promise_away() -> Result<(), Error> {
    let [link, drr, first, second, inner, one, other, prio] = customers(LINK);
    let tbf = Ask::Graft(Place::Class(4, 2), 5, LINK);
    promises(
        &[link, drr, first, second, inner, one, other, prio, tbf],
        &[(Place::Class(2, 1), None)],
    )
}
