//! Ports over a device: senders place packets in rings, and one drainer takes turns. The workload of `crates/q_ports_bench`.

use super::device::{Device, Polled};
use crate::plain::head::{Ecn, FlowKey};
use crate::plain::packet::{Packet, Put};
use crate::plain::ring::{Receiver, Sender, ring};
use std::sync::Mutex;
use std::sync::atomic::{AtomicUsize, Ordering};
use std::thread;
use std::time::Instant;

/// The packets of a turn.
const MOST: usize = 64;
const SENT: usize = 262_144;
const STEP: u64 = 1000;

fn device() -> Mutex<Device> {
    Mutex::new(Device::new(1514, 1_000_000, 0))
}

fn packet() -> Packet {
    Packet {
        key: FlowKey {
            family: 4,
            proto: 17,
            src: 0x0a00_0001,
            dst: 0x0a00_0002,
            sport: 1000,
            dport: 5000,
        },
        number: 0,
        port: 0,
        buf: 2,
        hash: 3,
        len: 1000,
        prio: 0,
        ecn: Ecn::NotEct,
    }
}

/// The rings in turn, from the one after that from which a packet was taken last.
struct Intake {
    rings: Vec<Receiver>,
    next: usize,
}

impl Intake {
    /// Under one lock: up to so many packets arrive, and then as many polls are made, to the first that gives none.
    fn turn(&mut self, device: &Mutex<Device>, now: u64) -> Option<(usize, Vec<Packet>)> {
        let mut device = device.lock().ok()?;
        let mut sent = Vec::new();
        sent.try_reserve_exact(MOST).ok()?;
        let mut taken = 0;
        while taken < MOST && self.take(&mut device, now)? {
            taken += 1;
        }
        let mut out = Packet::NONE;
        for _ in 0..MOST {
            let Polled::Packet = device.poll(now, &mut out) else {
                break;
            };
            sent.push(out);
        }
        Some((taken, sent))
    }

    /// Lets a packet of the next ring that has one arrive.
    fn take(&mut self, device: &mut Device, now: u64) -> Option<bool> {
        let count = self.rings.len();
        for _ in 0..count {
            let ring = &mut self.rings[self.next];
            self.next = if self.next + 1 == count { 0 } else { self.next + 1 };
            if let Some(packet) = ring.first() {
                if let Put::NoMemory = device.arrive(packet, now) {
                    return None;
                }
                ring.step();
                return Some(true);
            }
        }
        Some(false)
    }
}

/// How many figures there are.
pub const ROWS: usize = 11;

/// The nanoseconds of an offer, of a packet of 64 that are offered at once, of a packet in a turn of 64 and of the same calls on a device alone, of a turn that finds nothing, of an
/// offer into a long ring by one sender and where four offer at once, and of a packet with 1, 4, 16 and 64 senders.
pub fn timed() -> Option<[f64; ROWS]> {
    let [offer, many, turn, idle] = offers_and_turns(4096, 64)?;
    let [alone, at_once] = offers_at_once(65_536, 4)?;
    Some([offer, many, turn, calls_of_turns(4096, 64)?, idle, alone, at_once, drive(1)?, drive(4)?, drive(16)?, drive(64)?])
}

/// Fills a ring by offers of one and takes its packets by turns, and the same by offers of 64, so many times over; then takes as many
/// turns that find nothing as fit the ring.
fn offers_and_turns(places: usize, stretches: usize) -> Option<[f64; 4]> {
    let (device, given) = (device(), packet());
    let (mut sender, receiver) = ring(places);
    let mut intake = Intake {
        rings: vec![receiver],
        next: 0,
    };
    let packets = [given; MOST];
    let (mut offers, mut many, mut turns) = (0, 0, 0);
    for _ in 0..stretches {
        let start = Instant::now();
        if !(0..places).all(|_| sender.offer(&given, 0)) {
            return None;
        }
        offers += start.elapsed().as_nanos();
        let start = Instant::now();
        let mut sent = 0;
        for _ in 0..places / MOST {
            sent += intake.turn(&device, 0)?.1.len();
        }
        turns += start.elapsed().as_nanos();
        let start = Instant::now();
        if !(0..places / MOST).all(|_| sender.offer_many(&packets, 0) == MOST) {
            return None;
        }
        many += start.elapsed().as_nanos();
        for _ in 0..places / MOST {
            sent += intake.turn(&device, 0)?.1.len();
        }
        if sent != 2 * places {
            return None;
        }
    }
    let start = Instant::now();
    for _ in 0..places {
        intake.turn(&device, 0)?;
    }
    let idle = start.elapsed().as_nanos() as f64 / places as f64;
    let packets = (places * stretches) as f64;
    Some([offers as f64 / packets, many as f64 / packets, turns as f64 / packets, idle])
}

/// The calls that those turns make on a device, of packets in a list.
fn calls_of_turns(places: usize, stretches: usize) -> Option<f64> {
    let (mut device, packets) = (Device::new(1514, 1_000_000, 0), vec![packet(); places]);
    let mut out = Packet::NONE;
    let start = Instant::now();
    for _ in 0..stretches {
        for turn in packets.chunks(MOST) {
            for packet in turn {
                if let Put::NoMemory = device.arrive(packet, 0) {
                    return None;
                }
            }
            for _ in turn {
                let Polled::Packet = device.poll(0, &mut out) else {
                    return None;
                };
            }
        }
    }
    Some(start.elapsed().as_nanos() as f64 / (places * stretches) as f64)
}

/// A sender fills its ring, and then four at once, each on a thread of its own, so many times over and once before; the time of the
/// four is that of the slowest.
fn offers_at_once(places: usize, stretches: usize) -> Option<[f64; 2]> {
    let (device, given) = (device(), packet());
    let (mut ends, rings): (Vec<Sender>, Vec<Receiver>) = (0..4).map(|_| ring(places)).unzip();
    let mut intake = Intake { rings, next: 0 };
    let (mut one, mut all) = (0.0, 0.0);
    for stretch in 0..=stretches {
        let alone = fill(&mut ends[0], &given, places)?;
        for _ in 0..places / MOST {
            intake.turn(&device, 0)?;
        }
        let slowest = thread::scope(|scope| {
            let fill = |end| move || fill(end, &given, places);
            let senders: Vec<_> = ends.iter_mut().map(|end| scope.spawn(fill(end))).collect();
            let spans = senders.into_iter().map(|it| it.join().ok().flatten());
            spans.collect::<Option<Vec<f64>>>().map(|them| them.into_iter().fold(0.0, f64::max))
        })?;
        let mut sent = 0;
        for _ in 0..4 * places / MOST {
            sent += intake.turn(&device, 0)?.1.len();
        }
        if sent != 4 * places {
            return None;
        }
        if stretch > 0 {
            one += alone;
            all += slowest;
        }
    }
    let packets = (places * stretches) as f64;
    Some([one / packets, all / (4.0 * packets)])
}

/// The nanoseconds in which so many packets are placed.
fn fill(end: &mut Sender, given: &Packet, places: usize) -> Option<f64> {
    let start = Instant::now();
    (0..places).all(|_| end.offer(given, 0)).then(|| start.elapsed().as_nanos() as f64)
}

/// So many senders place their packets in threads of their own, while this thread takes turns.
fn drive(senders: usize) -> Option<f64> {
    let device = device();
    let each = SENT / senders;
    let (ends, rings): (Vec<Sender>, Vec<Receiver>) = (0..senders).map(|_| ring(1024)).unzip();
    let loads: Vec<Vec<Packet>> = (0..senders).map(|_| vec![packet(); each]).collect();
    let mut intake = Intake { rings, next: 0 };
    let ended = AtomicUsize::new(0);
    let start = Instant::now();
    let taken = thread::scope(|scope| {
        for (port, (mut end, load)) in ends.into_iter().zip(loads).enumerate() {
            let ended = &ended;
            scope.spawn(move || {
                for packet in &load {
                    while !end.offer(packet, port as u32) {
                        thread::yield_now();
                    }
                }
                ended.fetch_add(1, Ordering::Release);
            });
        }
        take_turns(&mut intake, &device, senders, &ended)
    })?;
    let span = start.elapsed().as_nanos() as f64;
    (taken == SENT).then_some(span / SENT as f64)
}

/// Takes turns until all senders have ended, and what is left after them; how many packets it took.
fn take_turns(intake: &mut Intake, device: &Mutex<Device>, senders: usize, ended: &AtomicUsize) -> Option<usize> {
    let (mut now, mut all) = (0, 0);
    loop {
        let is_last = ended.load(Ordering::Acquire) == senders;
        let (taken, _) = intake.turn(device, now)?;
        now += STEP;
        all += taken;
        if taken == 0 {
            if is_last {
                return Some(all);
            }
            thread::yield_now();
        }
    }
}
