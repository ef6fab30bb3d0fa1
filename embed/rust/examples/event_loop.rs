//! A drain that sleeps until a packet may go or a sender has brought one, and senders that sleep while their ring is full.
use qtree::{Drain, OfferError, Packet, PacketError, Port, Settings};
use std::thread::{self, Thread};
use std::time::{Duration, Instant};

const BURSTS: usize = 25;

/// If `unpark` is called before `park`, that `park` returns at once, so that no packet is missed. It makes a system call only while the other
/// thread sleeps.
fn bring(mut port: Port, drain: &Thread) -> Result<(), PacketError> {
    for _ in 0..BURSTS {
        for buf in 0..20 {
            let packet = Packet::builder(1000).buf(buf).build()?;
            while port.offer(&packet) == Err(OfferError::Full) {
                drain.unpark();
                thread::park();
            }
        }
        drain.unpark();
        thread::sleep(Duration::from_millis(2));
    }
    drop(port);
    drain.unpark();
    Ok(())
}

fn main() -> Result<(), qtree::Error> {
    let (mut drain, ports) = Drain::open(Settings::default(), 2, 16)?;
    let line = "tc qdisc add dev wan root handle 1: tbf rate 80mbit burst 20000 limit 1mb";
    drain.device_mut().command(line, 0)?;
    let here = thread::current();
    let start = |port| {
        let here = here.clone();
        thread::spawn(move || bring(port, &here))
    };
    let senders: Vec<_> = ports.into_iter().map(start).collect();
    let begun = Instant::now();
    let now = || u64::try_from(begun.elapsed().as_nanos()).unwrap_or(u64::MAX);
    let (mut given, mut sent) = (Vec::new(), 0);
    loop {
        // Asked before the turn: if all ports have closed by now, and the turn then finds no packet, none will ever come.
        let is_last = drain.open_ports() == 0;
        let turn = drain.turn(now(), 64, &mut given)?;
        sent += given.drain(..).count(); // a program transmits the packet of each buf
        let lost = drain.device_mut().losses().count(); // and frees the buffers of the losses
        if turn.taken > 0 {
            senders.iter().for_each(|it| it.thread().unpark());
        }
        if turn.taken + turn.sent + lost > 0 {
            continue;
        }
        match drain.device_mut().ready_at() {
            Some(due) => thread::park_timeout(Duration::from_nanos(due.saturating_sub(now()))),
            None if is_last => break,
            None => thread::park(),
        }
    }
    println!(
        "{sent} of {} sent, and slept meanwhile",
        senders.len() * BURSTS * 20
    );
    Ok(())
}
