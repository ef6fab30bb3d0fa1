//! Sessions of a program, which a device records, and keeps the last events of.
use crate::chance::Chance;
use crate::script::{answer_of, loss_of, play};
use qtree::{Device, Drain, Error, Event, EventKind, Packet, Settings, Show};
use std::fmt::Write;

const RECORDING: Settings = Settings {
    recorder: 100_000,
    ..DEFAULTS
};

const DEFAULTS: Settings = Settings {
    txqueuelen: 1000,
    recorder: 0,
    mtu: 1514,
};

/// A session of a program: what each poll gave, and which packets were lost on arrival.
fn session(device: &mut Device, chance: &mut Chance) -> Result<Vec<String>, Error> {
    let mut answers = Vec::new();
    let (mut now, mut arrived) = (0, 0);
    device.command(
        "tc qdisc add dev wan root handle 1: tbf rate 8mbit burst 3000 latency 50ms",
        0,
    )?;
    device.command(
        "tc qdisc add dev wan parent 1:1 handle 10: fq_codel limit 20 target 500us interval 2ms",
        0,
    )?;
    for _ in 0..500 {
        match chance.below(6) {
            0 => now += chance.below(4_000_000),
            1 | 2 => {
                arrived += 1;
                let packet = Packet::builder(1 + chance.short(1600))
                    .number(0, arrived)
                    .hash(chance.word(5))
                    .prio(chance.byte(16))
                    .ecn(chance.byte(4))
                    .proto(17)
                    .addresses([10, 0, 0, 1].into(), [192, 0, 2, chance.byte(256)].into())
                    .ports(chance.short(65536), 53)
                    .build()?;
                let fate = device.arrive(&packet, now)?;
                answers.extend(loss_of(&packet, fate));
            }
            _ => answers.push(answer_of(device.poll(now)?)),
        }
    }
    device.command(
        "tc qdisc change dev wan handle 10: fq_codel limit 7 noecn drop_batch 3",
        now,
    )?;
    answers.push(answer_of(device.poll(now)?));
    Ok(answers)
}

#[test]
fn a_session_is_played_again() -> Result<(), Error> {
    for seed in 0..20 {
        let mut device = Device::open(RECORDING)?;
        let answers = session(&mut device, &mut Chance::new(seed))?;
        let script = device.recorded_script()?;
        let mut again = Device::open(RECORDING)?;
        assert_eq!(play(&mut again, &script)?.report, answers, "{seed}");
        assert_eq!(again.show(Show::Counters)?, device.show(Show::Counters)?);
        assert_eq!(again.recorded_script()?, script);
    }
    Ok(())
}

#[test]
fn each_event_has_its_whole_content() -> Result<(), Error> {
    let mut device = Device::open(RECORDING)?;
    let sent = Packet::builder(1500).number(2, 3).buf(7).hash(9).build()?;
    device.command("tc qdisc add dev wan root handle a: bfifo limit 9kb", 4)?;
    device.arrive(&sent, 5)?;
    device.poll(2)?;
    let mut lines = String::new();
    let (events, recorded) = device.events();
    assert_eq!((events, recorded), (3, 3));
    for index in 0..recorded {
        let Some(Event { moment, kind, .. }) = device.recorded(index)? else {
            panic!("there is no event {index}");
        };
        match kind {
            EventKind::Arrived(packet) => {
                assert_eq!(packet, sent);
                writeln!(lines, "{moment} arrived").expect("memory");
            }
            EventKind::Polled => writeln!(lines, "{moment} polled").expect("memory"),
            EventKind::Commanded(line) => writeln!(lines, "{moment} {line}").expect("memory"),
        }
    }
    assert_eq!(
        lines,
        "4 tc qdisc add dev eth0 root handle a: bfifo limit 9216b\n5 arrived\n5 polled\n"
    );
    assert_eq!(device.recorded(recorded)?, None);
    Ok(())
}

#[test]
fn without_a_recorder_the_script_is_empty() -> Result<(), Error> {
    let mut device = Device::open(DEFAULTS)?;
    device.poll(3)?;
    assert_eq!(device.events(), (1, 0));
    assert_eq!(device.recorded_script()?, "");
    Ok(())
}

#[test]
fn the_last_events_are_those_of_a_long_recorder() -> Result<(), Error> {
    for seed in 0..20 {
        let mut device = Device::open(RECORDING)?;
        device.keep_last(30)?;
        session(&mut device, &mut Chance::new(seed))?;
        let (events, recorded) = device.events();
        assert_eq!(device.last_noted(), (events, 30));
        let last = device.last_events()?;
        assert_eq!(last.len(), 30);
        for (i, event) in last.into_iter().enumerate() {
            assert_eq!(Some(event), device.recorded(recorded - 30 + i)?, "{seed}");
        }
        assert_eq!(device.last_event(30)?, None);
    }
    Ok(())
}

#[test]
fn a_ring_of_last_events_comes_and_goes() -> Result<(), Error> {
    let mut device = Device::open(DEFAULTS)?;
    assert_eq!(device.keep_last(1_000_001), Err(Error::OutOfRange));
    device.poll(3)?;
    assert_eq!(
        (device.last_noted(), device.last_events()?),
        ((0, 0), vec![])
    );
    device.keep_last(5)?;
    device.poll(4)?;
    assert_eq!(
        device.command("tc qdisc del dev wan root", 4),
        Err(Error::Refused(qtree::Refusal::NoQdisc))
    );
    assert_eq!(device.last_noted(), (1, 1));
    device.keep_last(0)?;
    device.poll(5)?;
    assert_eq!(device.last_noted(), (0, 0));
    Ok(())
}

#[test]
fn packets_from_rings_are_among_the_last_events() -> Result<(), Error> {
    let (mut drain, mut ports) = Drain::open(DEFAULTS, 2, 8)?;
    drain.device_mut().keep_last(3)?;
    for (i, port) in ports.iter_mut().enumerate() {
        let packet = Packet::builder(100 + i as u16).buf(7).build()?;
        port.offer(&packet).expect("room");
    }
    let mut sent = Vec::new();
    drain.turn(9, 8, &mut sent)?;
    assert_eq!(drain.device().last_noted(), (5, 3)); // two arrivals, two polls, and one that gave none
    let kinds: Vec<EventKind> = drain
        .device()
        .last_events()?
        .into_iter()
        .map(|it| it.kind)
        .collect();
    assert_eq!(
        kinds,
        [EventKind::Polled, EventKind::Polled, EventKind::Polled]
    );
    drain.device_mut().keep_last(3)?;
    ports[1]
        .offer(&Packet::builder(300).buf(8).build()?)
        .expect("room");
    drain.turn(10, 8, &mut sent)?;
    let last = drain.device().last_events()?;
    assert!(
        matches!(&last[0].kind, EventKind::Arrived(packet) if (packet.port(), packet.number(), packet.buf()) == (1, 2, 8))
    );
    assert_eq!(last[0].moment, 10);
    Ok(())
}
