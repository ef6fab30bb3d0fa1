//! Senders on threads of their own, a drain and gauges. QTREE_TEST_PACKETS is how many packets each
//! of 64 senders places, 500 where it is not set.
use qtree::{Count, Drain, Error, Gauge, OfferError, Packet, Place, Port, Row, Sent, Settings};
use std::sync::atomic::{AtomicBool, Ordering};
use std::thread;
use std::time::Duration;

const SENDERS: u32 = 64;

fn packets_of_each() -> u64 {
    let set = std::env::var("QTREE_TEST_PACKETS").ok();
    set.and_then(|it| it.parse().ok()).unwrap_or(500)
}

fn packet(len: u16, buf: u32) -> Packet {
    Packet::builder(len).buf(buf).build().expect("a length")
}

/// Leaves the processor to the other threads.
fn rest() {
    thread::sleep(Duration::from_micros(50));
}

/// Places so many packets, each again until the ring has room; the share of the port.
fn send(mut port: Port, count: u64) -> Count {
    for buf in 0..count as u32 {
        while let Err(error) = port.offer(&packet(100 + port.index() as u16, buf)) {
            assert_eq!(error, OfferError::Full);
            rest();
        }
    }
    port.share()
}

/// Reads until the drain has ended: no counter falls, and each row adds up.
fn watch(gauge: &Gauge, has_ended: &AtomicBool) -> Row {
    let mut last = Row::default();
    while !has_ended.load(Ordering::SeqCst) {
        let row = gauge.read();
        let left = [row.sent, row.refused, row.dropped, row.queued];
        assert_eq!(row.arrived.packets, left.iter().map(|it| it.packets).sum());
        assert_eq!(row.arrived.bytes, left.iter().map(|it| it.bytes).sum());
        assert!(row.arrived.packets >= last.arrived.packets && row.sent.bytes >= last.sent.bytes);
        last = row;
        rest();
    }
    last
}

/// Turns until the ports are closed and nothing is left; what was sent, checked for its order at
/// each port.
fn drain_all(drain: &mut Drain) -> Result<Count, Error> {
    let (mut sent, mut total) = (Vec::new(), Count::default());
    let mut numbers = vec![0; SENDERS as usize];
    loop {
        let are_closed = drain.open_ports() == 0;
        let turn = drain.turn(0, 256, &mut sent)?;
        for packet in sent.drain(..) {
            numbers[packet.port() as usize] += 1;
            assert_eq!(packet.number(), numbers[packet.port() as usize]);
            assert_eq!(packet.number(), u64::from(packet.buf()) + 1);
            assert_eq!(u32::from(packet.len()), 100 + packet.port());
            total.packets += 1;
            total.bytes += u64::from(packet.len());
        }
        if turn.taken == 0 && turn.sent == 0 {
            if are_closed {
                return Ok(total);
            }
            rest();
        }
    }
}

#[test]
fn shares_of_64_threads_add_up() -> Result<(), Error> {
    let each = packets_of_each();
    let (mut drain, ports) = Drain::open(Settings::default(), SENDERS, 256)?;
    drain
        .device_mut()
        .command("tc qdisc add dev wan root handle 1: pfifo limit 1000", 0)?;
    let gauge = drain.gauge();
    let has_ended = AtomicBool::new(false);
    thread::scope(|scope| {
        let senders: Vec<_> = ports
            .into_iter()
            .map(|port| scope.spawn(move || send(port, each)))
            .collect();
        let watchers: Vec<_> = (0..2)
            .map(|_| scope.spawn(|| watch(&gauge, &has_ended)))
            .collect();
        let sent = drain_all(&mut drain);
        has_ended.store(true, Ordering::SeqCst);
        let sent = sent?;
        let settled = drain.settle(0)?;
        assert!(settled.adds_up);
        assert_eq!((settled.placed, settled.taken), (sent, sent));
        assert_eq!(sent.packets, u64::from(SENDERS) * each);
        for (index, sender) in senders.into_iter().enumerate() {
            let placed = sender.join().expect("no panic");
            assert_eq!(placed.packets, each);
            assert_eq!(drain.share(index as u32), Some(placed));
        }
        let row = drain
            .device_mut()
            .stats(Place::Top)
            .expect("the device is there");
        assert_eq!(
            (row.arrived, row.sent, row.queued),
            (sent, sent, Count::default())
        );
        assert_eq!(gauge.read(), row);
        for watcher in watchers {
            assert!(watcher.join().expect("no panic").sent.packets <= row.sent.packets);
        }
        Ok(())
    })
}

#[test]
fn a_full_ring_leaves_the_packet_to_its_sender() -> Result<(), Error> {
    let (mut drain, mut ports) = Drain::open(Settings::default(), 1, 3)?;
    let port = &mut ports[0];
    for buf in 0..3 {
        assert_eq!(port.offer(&packet(100, buf)), Ok(()));
    }
    let late = packet(200, 3);
    assert_eq!(port.offer(&late), Err(OfferError::Full));
    assert_eq!((port.share().packets, port.share().bytes), (3, 300));
    let mut sent = Vec::new();
    let turn = drain.turn(0, 1, &mut sent)?;
    assert_eq!((turn.taken, turn.sent, turn.memory), (1, 1, false));
    assert_eq!(port.offer(&late), Ok(()));
    drain.turn(0, 10, &mut sent)?;
    let seen: Vec<_> = sent
        .iter()
        .map(|it| (it.buf(), it.number(), it.port()))
        .collect();
    assert_eq!(seen, [(0, 1, 0), (1, 2, 0), (2, 3, 0), (3, 4, 0)]);
    let empty = Packet::read(&[], 0, 4, 0);
    assert_eq!(port.offer(&empty), Err(OfferError::OutOfRange));
    assert_eq!(port.share().packets, 4);
    Ok(())
}

#[test]
fn a_burst_is_placed_up_to_the_first_packet_that_is_not() -> Result<(), Error> {
    let (mut drain, mut ports) = Drain::open(Settings::default(), 1, 20)?;
    let port = &mut ports[0];
    let mut burst: Vec<_> = (0..30).map(|buf| packet(100, buf)).collect();
    assert_eq!(port.offer_many(&[]), (0, Ok(())));
    assert_eq!(port.offer_many(&burst), (20, Err(OfferError::Full)));
    let mut sent = Vec::new();
    drain.turn(0, 30, &mut sent)?;
    burst[27] = Packet::read(&[], 0, 27, 0);
    let ended = port.offer_many(&burst[20..]);
    assert_eq!(ended, (7, Err(OfferError::OutOfRange)));
    assert_eq!((port.share().packets, port.share().bytes), (27, 2700));
    drain.turn(0, 30, &mut sent)?;
    assert!(sent.iter().map(|it| it.buf()).eq(0..27));
    drop(drain);
    assert_eq!(port.offer_many(&burst), (0, Err(OfferError::Closed)));
    Ok(())
}

#[test]
fn rings_take_turns_where_the_last_turn_ended() -> Result<(), Error> {
    let (mut drain, mut ports) = Drain::open(Settings::default(), 3, 4)?;
    for port in &mut ports {
        for buf in 0..4 {
            port.offer(&packet(100, buf)).expect("there is room");
        }
    }
    let mut sent = Vec::new();
    for most in [2, 2, 1, 0, 20] {
        drain.turn(0, most, &mut sent)?;
    }
    let seen: Vec<_> = sent.iter().map(Packet::port).collect();
    assert_eq!(seen, [0, 1, 2, 0, 1, 2, 0, 1, 2, 0, 1, 2]);
    let late = drain.turn(qtree::MOMENT_MAX + 1, 1, &mut sent);
    assert_eq!((late, sent.len()), (Err(Error::OutOfRange), 12));
    Ok(())
}

#[test]
fn a_sender_that_panics_closes_its_port() -> Result<(), Error> {
    let (mut drain, mut ports) = Drain::open(Settings::default(), 2, 4)?;
    assert_eq!(drain.settle(0), Err(Error::OpenPorts));
    let mut port = ports.remove(1);
    let sender = thread::spawn(move || {
        port.offer(&packet(100, 7)).expect("there is room");
        std::panic::resume_unwind(Box::new("the sender gives up"));
    });
    assert!(sender.join().is_err());
    assert_eq!(drain.open_ports(), 1);
    assert_eq!(drain.settle(0), Err(Error::OpenPorts));
    drop(ports);
    let settled = drain.settle(0)?;
    assert!(settled.adds_up);
    assert_eq!((settled.taken.packets, settled.placed.bytes), (1, 100));
    assert_eq!(
        (drain.share(0), drain.share(2)),
        (Some(Count::default()), None)
    );
    Ok(())
}

#[test]
fn ends_are_dropped_in_any_order() -> Result<(), Error> {
    for order in [
        [0, 1, 2],
        [0, 2, 1],
        [1, 0, 2],
        [1, 2, 0],
        [2, 0, 1],
        [2, 1, 0],
    ] {
        let (mut drain, mut ports) = Drain::open(Settings::default(), 2, 4)?;
        let second = ports.pop();
        let mut first = ports.pop().expect("there are two");
        for buf in 0..4 {
            first.offer(&packet(100, buf)).expect("there is room");
        }
        drain.turn(0, 2, &mut Vec::new())?;
        let (mut drain, mut first, mut second) = (Some(drain), Some(first), second);
        for which in order {
            match which {
                0 => drop(drain.take()),
                1 => drop(first.take()),
                _ => drop(second.take()),
            }
            if let (None, Some(port)) = (&drain, &mut first) {
                assert_eq!(port.offer(&packet(100, 9)), Err(OfferError::Closed));
                assert_eq!(port.share().packets, 4);
            }
        }
    }
    Ok(())
}

#[test]
fn what_is_out_of_range_opens_nothing() {
    let none = |ports, places| Drain::open(Settings::default(), ports, places).err();
    assert_eq!(none(0, 1), Some(Error::OutOfRange));
    assert_eq!(none(1, 0), Some(Error::OutOfRange));
    assert_eq!(none(1, 65537), Some(Error::OutOfRange));
    let settings = Settings {
        mtu: 0,
        ..Settings::default()
    };
    assert_eq!(Drain::open(settings, 1, 1).err(), Some(Error::OutOfRange));
    assert!(Drain::open(Settings::default(), 1, 65536).is_ok());
}

#[test]
fn a_drain_has_a_thousand_ports() -> Result<(), Error> {
    let (mut drain, mut ports) = Drain::open(Settings::default(), 1000, 4)?;
    for port in &mut ports {
        assert_eq!(port.offer(&packet(100, port.index())), Ok(()));
    }
    let mut sent = Vec::new();
    let turn = drain.turn(0, 2000, &mut sent)?;
    assert_eq!((turn.taken, turn.sent, turn.memory), (1000, 1000, false));
    assert!(sent.iter().map(Packet::port).eq(0..1000));
    assert_eq!(drain.share(999).map(|it| it.packets), Some(1));
    Ok(())
}

#[test]
fn one_call_passes_a_thousand_packets() -> Result<(), Error> {
    const MANY: usize = 1000;
    let burst: Vec<_> = (0..MANY as u32).map(|buf| packet(100, buf)).collect();
    let (mut drain, mut ports) = Drain::open(Settings::default(), 1, MANY)?;
    assert_eq!(ports[0].offer_many(&burst), (MANY, Ok(())));
    let mut sent = Vec::new();
    let turn = drain.turn(0, MANY, &mut sent)?;
    assert_eq!((turn.taken, turn.sent), (MANY, MANY));
    assert!(sent.iter().map(Packet::buf).eq(0..MANY as u32));
    drain.device_mut().arrive_many(&burst, 0, &mut Vec::new())?;
    let mut sent = [Sent::default(); MANY];
    assert_eq!(drain.device_mut().poll_bufs(0, &mut sent), Ok(MANY));
    assert!(sent.iter().map(Sent::buf).eq(0..MANY as u32));
    Ok(())
}

/// Two of the longest rings, which are full, settle by one call.
#[test]
fn the_longest_rings_settle() -> Result<(), Error> {
    const PLACES: usize = 65536;
    let burst = vec![packet(100, 0); PLACES];
    let (mut drain, ports) = Drain::open(Settings::default(), 2, PLACES)?;
    let line = "tc qdisc add dev wan root pfifo limit 200000";
    drain.device_mut().command(line, 0)?;
    for mut port in ports {
        assert_eq!(port.offer_many(&burst), (PLACES, Ok(())));
    }
    let gauge = drain.gauge();
    let settled = drain.settle(0)?;
    assert!(settled.adds_up);
    assert_eq!(settled.taken.packets, 2 * PLACES as u64);
    assert_eq!(gauge.read().arrived, settled.taken);
    assert_eq!(drain.device().totals().queued, settled.placed);
    Ok(())
}

/// What a command does is shown by the next turn, though that turn takes and sends nothing.
#[test]
fn a_turn_shows_what_a_command_lost() -> Result<(), Error> {
    let (mut drain, mut ports) = Drain::open(Settings::default(), 1, 4)?;
    let gauge = drain.gauge();
    let line = "tc qdisc add dev wan root handle 1: tbf rate 8bit burst 2000 limit 20000";
    drain.device_mut().command(line, 0)?;
    for buf in 0..2 {
        assert_eq!(ports[0].offer(&packet(1500, buf)), Ok(()));
    }
    drain.turn(0, 4, &mut Vec::new())?;
    assert_eq!(
        (gauge.read().queued.packets, gauge.read().dropped.packets),
        (1, 0)
    );
    drain.device_mut().command("tc qdisc del dev wan root", 0)?;
    let turn = drain.turn(0, 4, &mut Vec::new())?;
    assert_eq!((turn.taken, turn.sent), (0, 0));
    assert_eq!(
        (gauge.read().queued.packets, gauge.read().dropped.packets),
        (0, 1)
    );
    Ok(())
}
