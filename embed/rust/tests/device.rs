//! A device from one thread to another, a shaped download, and every refusal that a program can
//! meet.
use qtree::{
    Cause, Device, Error, Fate, Lost, MOMENT_MAX, Packet, Place, Polled, Sent, Settings, Show,
};

fn udp(len: u16, buf: u32) -> Packet {
    Packet::builder(len)
        .buf(buf)
        .addresses([10, 0, 0, 1].into(), [10, 0, 0, 2].into())
        .proto(17)
        .ports(4096, 5001)
        .build()
        .expect("a length")
}

#[test]
fn a_bucket_is_waited_for() -> Result<(), Error> {
    let mut device = Device::open(Settings::default())?;
    device.command(
        "tc qdisc add dev wan root handle 1: tbf rate 8mbit burst 2000 latency 50ms",
        0,
    )?;
    assert_eq!(device.ready_at(), None);
    device.arrive(&udp(1500, 1), 0)?;
    device.arrive(&udp(1500, 2), 0)?;
    assert!(matches!(device.poll(0)?, Polled::Packet(packet) if packet.buf() == 1));
    assert_eq!(device.poll(0)?, Polled::Later);
    let at = device.ready_at().expect("a packet waits");
    assert_eq!(at, 1_000_000);
    assert_eq!(device.poll(at - 1)?, Polled::Later);
    assert!(matches!(device.poll(at)?, Polled::Packet(packet) if packet.buf() == 2));
    assert_eq!(device.poll(at)?, Polled::Idle);
    Ok(())
}

#[test]
fn a_turn_is_polls_reaps_and_when_to_come_back() -> Result<(), Error> {
    let mut device = Device::open(Settings::default())?;
    device.command(
        "tc qdisc add dev wan root tbf rate 8mbit burst 1000 limit 3000",
        0,
    )?;
    for buf in 0..5 {
        device.arrive(&udp(1000, buf), 0)?;
    }
    let (mut sent, mut lost) = ([Sent::default(); 4], [Lost::default(); 1]);
    let turned = device.turn(0, &mut sent, &mut lost)?;
    assert_eq!((turned.sent, sent[0].buf(), sent[0].len()), (1, 0, 1000));
    assert_eq!((turned.lost, lost[0].buf()), (1, 3));
    assert_eq!(lost[0].cause(), Cause::OverLimit);
    assert_eq!(
        (turned.again, device.ready_at()),
        (Some(1_000_000), Some(1_000_000))
    );
    // The slice for losses was full, so that one more may wait. Nothing is due, so that there is no event.
    let events = device.events();
    let turned = device.turn(999_999, &mut sent, &mut lost)?;
    assert_eq!((turned.sent, turned.lost, lost[0].buf()), (0, 1, 4));
    assert_eq!((turned.again, device.events()), (Some(1_000_000), events));
    assert_eq!(
        device.turn(3_000_000, &mut sent[..1], &mut [])?.again,
        Some(4_000_000)
    );
    assert!(matches!(
        device.turn(MOMENT_MAX + 1, &mut sent, &mut lost),
        Err(Error::OutOfRange)
    ));
    Ok(())
}

#[test]
fn it_goes_to_another_thread() -> Result<(), Error> {
    let mut device = Device::open(Settings::default())?;
    device.arrive(&udp(100, 1), 0)?;
    let device = std::thread::spawn(move || {
        device.arrive(&udp(200, 2), 1).expect("memory");
        device
    })
    .join()
    .expect("no panic");
    let row = device.stats(Place::Top).expect("the device is there");
    assert_eq!((row.arrived.packets, row.queued.bytes), (2, 300));
    assert_eq!(device.stats(Place::Class(1, 1)), None);
    assert!(device.show(Show::Counters)?.contains("queued 2p 300b"));
    Ok(())
}

#[test]
fn what_is_refused_changes_nothing() -> Result<(), Error> {
    let mut device = Device::open(Settings {
        mtu: 1000,
        ..Settings::default()
    })?;
    let empty = Packet::read(&[], 0, 1, 0);
    assert_eq!(device.arrive(&empty, 0), Err(Error::OutOfRange));
    assert_eq!(
        device.arrive(&udp(10, 1), qtree::MOMENT_MAX + 1),
        Err(Error::OutOfRange)
    );
    assert_eq!(device.command("tc qdisc show", 0), Err(Error::NoCommand));
    assert_eq!(
        device.stats(Place::Top).map(|row| row.arrived.packets),
        Some(0)
    );
    assert_eq!(device.arrive(&udp(1500, 9), 0)?, Fate::Lost(Cause::TooLong));
    let loss = device.losses().next().expect("one is lost");
    assert_eq!((loss.packet, loss.cause), (udp(1500, 9), Cause::TooLong));
    assert!(device.losses().next().is_none());
    let none = Device::open(Settings {
        mtu: 0,
        ..Settings::default()
    });
    assert_eq!(none.err(), Some(Error::OutOfRange));
    assert_eq!(qtree::version().0, 1);
    Ok(())
}

#[test]
fn a_class_is_promised_its_part() -> Result<(), Error> {
    let mut device = Device::open(Settings::default())?;
    for line in [
        "tc qdisc add dev wan root handle 2: drr",
        "tc class add dev wan parent 2: classid 2:1 drr quantum 3000",
        "tc class add dev wan parent 2: classid 2:2 drr quantum 1500",
        "tc qdisc add dev wan parent 2:2 handle 3: prio",
    ] {
        device.command(line, 0)?;
    }
    let service = device
        .service(Place::Class(2, 2))
        .expect("a class of a drr");
    assert_eq!((service.link, service.rate), (None, None));
    assert_eq!((service.part, service.slack), (333_333_333, 3513));
    assert_eq!(service.late, None);
    assert_eq!(device.service(Place::Class(3, 1)), None);
    assert_eq!(device.service(Place::Class(2, 3)), None);
    assert_eq!(device.service(Place::Root), None);
    Ok(())
}

#[test]
fn a_fifo_in_line_is_promised_a_delay() -> Result<(), Error> {
    let mut device = Device::open(Settings::default())?;
    let worst = device.worst(Place::Root).expect("the pfifo of the device");
    assert_eq!((worst.bytes, worst.ns, worst.late), (1_514_000, None, None));
    for line in [
        "tc qdisc add dev wan root handle 1: tbf rate 3mbit burst 1640 limit 10000",
        "tc qdisc add dev wan parent 1:1 handle 2: prio",
        "tc qdisc add dev wan parent 2:1 handle 3: pfifo limit 2",
    ] {
        device.command(line, 0)?;
    }
    let worst = device.worst(Place::Class(2, 1)).expect("the first band");
    assert_eq!((worst.bytes, worst.ns), (3028, Some(8_074_667)));
    assert_eq!(worst.late, Some(335_999));
    assert_eq!(device.worst(Place::Class(2, 2)), None);
    assert_eq!(device.worst(Place::Class(1, 1)), None);
    assert_eq!(device.worst(Place::Top), None);
    Ok(())
}

#[test]
fn a_class_of_a_drr_is_promised_a_delay() -> Result<(), Error> {
    let mut device = Device::open(Settings::default())?;
    for line in [
        "tc qdisc add dev wan root handle 1: tbf rate 20mbit burst 1640 limit 10000",
        "tc qdisc add dev wan parent 1:1 handle 2: drr",
        "tc class add dev wan parent 2: classid 2:1 drr quantum 3000",
        "tc class add dev wan parent 2: classid 2:2 drr quantum 1500",
        "tc qdisc add dev wan parent 2:1 handle 3: bfifo limit 1500",
        "tc qdisc add dev wan parent 2:2 handle 4: fq_codel",
    ] {
        device.command(line, 0)?;
    }
    let worst = device.worst(Place::Class(2, 1)).expect("the first class");
    assert_eq!((worst.bytes, worst.ns), (7527, Some(3_010_800)));
    assert_eq!(worst.late, Some(50_399));
    assert_eq!(device.worst(Place::Class(2, 2)), None);
    assert_eq!(device.latest(Place::Class(2, 2), 0), None);
    Ok(())
}

#[test]
fn a_packet_of_a_class_of_a_drr_is_told_when_it_has_left() -> Result<(), Error> {
    let mut device = Device::open(Settings::default())?;
    for line in [
        "tc qdisc add dev wan root handle 1: tbf rate 1mbit burst 1640 limit 9000",
        "tc qdisc add dev wan parent 1:1 handle 2: drr",
        "tc class add dev wan parent 2: classid 2:1 drr quantum 3000",
        "tc class add dev wan parent 2: classid 2:2 drr quantum 1500",
        "tc filter add dev wan parent 2: prio 1 flower dst_port 443 classid 2:2",
        "tc filter add dev wan parent 2: prio 2 flower dst_port 53 classid 2:1",
    ] {
        device.command(line, 0)?;
    }
    let packet = |len, port| {
        Packet::builder(len)
            .ports(4096, port)
            .build()
            .expect("a length")
    };
    device.arrive(&packet(1500, 443), 0)?;
    device.arrive(&packet(1000, 443), 0)?;
    assert!(matches!(device.poll(0)?, Polled::Packet(_)));
    // The drr holds the second one, for which the tbf has not paid.
    assert!(matches!(device.poll(0)?, Polled::Later));
    let first = Place::Class(2, 1);
    let latest = device.latest(first, 800).expect("the first class");
    assert_eq!((latest.bytes, latest.at), (1800, Some(13_280_000)));
    assert_eq!(latest.late, Some(1_007_999));
    device.arrive(&packet(800, 53), 0)?;
    assert_eq!(device.latest(first, 0), Some(latest));
    assert!(matches!(device.poll(6_880_000)?, Polled::Packet(_)));
    let latest = device.latest(first, 0).expect("the first class");
    assert_eq!((latest.bytes, latest.at), (800, Some(13_280_000)));
    assert!(matches!(device.poll(13_279_999)?, Polled::Later));
    assert!(matches!(device.poll(13_280_000)?, Polled::Packet(_)));
    Ok(())
}

#[test]
fn a_packet_that_comes_next_is_told_when_it_has_left() -> Result<(), Error> {
    let mut device = Device::open(Settings::default())?;
    device.arrive(&udp(300, 0), 0)?;
    let latest = device.latest(Place::Root, 700).expect("the pfifo");
    assert_eq!((latest.bytes, latest.at, latest.late), (1000, None, None));
    device.poll(0)?;
    for line in [
        "tc qdisc add dev wan root handle 1: tbf rate 8mbit burst 3000 limit 20000",
        "tc qdisc add dev wan parent 1:1 handle 2: prio",
    ] {
        device.command(line, 0)?;
    }
    for number in 0..2 {
        device.arrive(&udp(1500, number), 50)?;
        assert!(matches!(device.poll(50)?, Polled::Packet(_)));
    }
    let first = Place::Class(2, 1);
    let voice = |len| Packet::builder(len).prio(6).build().expect("a length");
    device.arrive(&voice(400), 50)?;
    let latest = device.latest(first, 1000).expect("the first band");
    assert_eq!((latest.bytes, latest.at), (1400, Some(1_400_050)));
    assert_eq!(latest.late, Some(1_485_999));
    device.arrive(&voice(1000), 50)?;
    assert_eq!(device.latest(first, 0), Some(latest));
    assert!(matches!(device.poll(400_050)?, Polled::Packet(_)));
    assert!(matches!(device.poll(1_400_049)?, Polled::Later));
    assert!(matches!(device.poll(1_400_050)?, Polled::Packet(_)));
    assert_eq!(device.latest(Place::Class(2, 2), 1000), None);
    assert_eq!(device.latest(Place::Root, 1000), None);
    Ok(())
}
