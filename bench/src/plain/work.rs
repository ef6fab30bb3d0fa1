//! The workloads of `crates/q_bench`, over the plain Rust of the modules beside this one.

use super::active::{Active, Turn};
use super::bucket::Bucket;
use super::codel::{Codel, Law};
use super::fifo::{Fifo, Limit};
use super::flows::{FqCodel, Settings};
use super::gap;
use super::head::{Ecn, FlowKey, Head, one_at_a_time, read_head as read};
use super::packet::{Packet, Put};
use super::signals::Signals;

/// The latest time, in nanoseconds.
const LATEST: u64 = 1 << 62;

const MTU: u16 = 1514;

/// How an fq_codel is loaded.
#[derive(Clone, Copy)]
pub struct FlowLoad {
    pub flows: u32,
    pub limit: u32,
    pub drop_batch: u32,
    pub queued: u32,
    pub takes: bool,
}

fn with(sum: u64, value: u64) -> u64 {
    sum.rotate_left(5).wrapping_add(value)
}

#[inline(never)]
pub fn read_head(table: &[u8], passes: u32) -> u64 {
    let (slots, _) = table.as_chunks::<64>();
    let mut sum = 0;
    for _ in 0..passes {
        for slot in slots {
            sum = with(sum, summary(&read(head_in(slot))));
        }
    }
    sum
}

#[inline(never)]
pub fn hash(table: &[u8], passes: u32) -> u64 {
    let (slots, _) = table.as_chunks::<64>();
    let keys: Vec<FlowKey> = slots.iter().map(|slot| read(head_in(slot)).key).collect();
    let mut sum = 0;
    for _ in 0..passes {
        for key in &keys {
            sum = with(sum, one_at_a_time(passes, &key.bytes()).into());
        }
    }
    sum
}

fn head_in(slot: &[u8; 64]) -> &[u8] {
    &slot[..usize::from(slot[63]).min(63)]
}

fn summary(head: &Head) -> u64 {
    let key = &head.key;
    let numbers = u64::from(key.family) << 56
        ^ u64::from(key.proto) << 48
        ^ u64::from(head.prio) << 40
        ^ (head.ecn as u64) << 32
        ^ u64::from(key.sport) << 16
        ^ u64::from(key.dport);
    numbers ^ key.src as u64 ^ (key.dst >> 64) as u64 ^ key.dst as u64
}

#[inline(never)]
pub fn gap(interval: u64, first: u32, counts: u32, passes: u32) -> u64 {
    let mut sum = 0;
    for _ in 0..passes {
        for more in 0..counts {
            sum = with(sum, gap::gap(interval, first.saturating_add(more)));
        }
    }
    sum
}

#[inline(never)]
pub fn spend(rate: u64, burst: u32, spends: &[u64], passes: u32) -> u64 {
    let mut bucket = Bucket::new(rate, burst);
    let mut now = 0;
    let mut sum = 0;
    for _ in 0..passes {
        for spend in spends {
            now += spend >> 16;
            if now > LATEST {
                return 0;
            }
            sum = with(sum, bucket.spend(now, *spend as u16).into());
        }
    }
    sum
}

#[inline(never)]
pub fn fifo(queued: u32, lens: &[u16], passes: u32) -> u64 {
    let mut queue = Fifo::new(Limit::Packets(u64::from(queued) + 1));
    pass_through(&mut queue, queued, lens, passes).unwrap_or(0)
}

fn pass_through(queue: &mut Fifo, queued: u32, lens: &[u16], passes: u32) -> Option<u64> {
    let made = sized(lens)?;
    let mut signals = Signals::default();
    fill(queue, queued, &made, &mut signals)?;
    let mut out = Packet::NONE;
    let mut sum = 1;
    for _ in 0..passes {
        for packet in &made {
            put(queue, packet, 0, &mut signals)?;
            if queue.take_into(&mut out) == 0 {
                return None;
            }
            sum = with(sum, packet_summary(&out));
        }
    }
    Some(sum)
}

#[inline(never)]
pub fn codel(queued: u32, lens: &[u16], moments: &[u64]) -> u64 {
    let mut queue = Fifo::new(Limit::Packets(u64::from(queued) + 1));
    let mut signals = Signals::default();
    signals.lost.reserve(queued as usize);
    take_at(&mut queue, &mut signals, queued, lens, moments).unwrap_or(0)
}

fn take_at(queue: &mut Fifo, signals: &mut Signals, queued: u32, lens: &[u16], moments: &[u64]) -> Option<u64> {
    let made = sized(lens)?;
    fill(queue, queued, &made, signals)?;
    let law = Law {
        target: 5_000_000,
        interval: 100_000_000,
        mtu: MTU.into(),
        ecn: false,
    };
    let mut codel = Codel::default();
    let mut out = Packet::NONE;
    let (mut next, mut sum) = (0, 1);
    for moment in moments {
        let now = *moment;
        if now > LATEST || queue.count() > (signals.lost.capacity() - signals.lost.len()) as u64 {
            return None;
        }
        if codel.take_into(&law, queue, now, signals, &mut out) == 0 {
            return None;
        }
        sum = with(sum, packet_summary(&out));
        let packet = made.get(next)?;
        put(queue, packet, now, signals)?;
        while let Some(lost) = signals.lost.pop_front() {
            sum = with(sum, packet_summary(&lost.packet));
            put(queue, packet, now, signals)?;
        }
        next = if next + 1 < made.len() { next + 1 } else { 0 };
    }
    Some(with(sum, codel.count.into()))
}

/// Puts so many packets at time 0, round and round.
fn fill(queue: &mut Fifo, queued: u32, made: &[Packet], signals: &mut Signals) -> Option<()> {
    for (_, packet) in (0..queued).zip(made.iter().cycle()) {
        put(queue, packet, 0, signals)?;
    }
    Some(())
}

/// `None` if an allocation fails or the limit is reached.
#[inline(always)]
fn put(queue: &mut Fifo, packet: &Packet, now: u64, signals: &mut Signals) -> Option<()> {
    match queue.put(packet, now, signals) {
        Put::Kept => Some(()),
        Put::Lost(_) | Put::NoMemory => None,
    }
}

fn sized(lens: &[u16]) -> Option<Vec<Packet>> {
    let lens = lens.iter().enumerate();
    lens.map(|(number, len)| packet_of(number as u64, *len, 3)).collect()
}

fn hashed(hashes: &[u32]) -> Option<Vec<Packet>> {
    let hashes = hashes.iter().enumerate();
    hashes
        .map(|(number, hash)| packet_of(number as u64, (60 + hash % 1400) as u16, *hash))
        .collect()
}

fn packet_of(number: u64, len: u16, hash: u32) -> Option<Packet> {
    if len == 0 {
        return None;
    }
    Some(Packet {
        port: 1,
        number,
        buf: 2,
        len,
        key: FlowKey::default(),
        hash,
        prio: 4,
        ecn: Ecn::NotEct,
    })
}

fn packet_summary(packet: &Packet) -> u64 {
    let place = u64::from(packet.port) << 32 | u64::from(packet.buf);
    let queue = u64::from(packet.hash) << 32 | u64::from(packet.len) << 8 | u64::from(packet.prio);
    packet.number ^ place ^ queue ^ packet.key.src as u64
}

#[inline(never)]
pub fn turn(classes: u16, quantum: u32, lens: &[u16], passes: u32) -> u64 {
    let mut active = Active::default();
    for class in 0..classes {
        active.add(class, quantum);
        active.wake(class);
    }
    let mut sum = 0;
    for _ in 0..passes {
        for len in lens {
            let Some(class) = active.front() else {
                return 0;
            };
            let sent = active.turn((*len).min(MTU)) == Turn::Send;
            sum = with(sum, u64::from(class) << 1 | u64::from(sent));
        }
    }
    sum
}

/// Packets into an fq_codel that holds `queued` before, and one taken after each with `takes`.
#[inline(never)]
pub fn flows(load: &FlowLoad, hashes: &[u32], passes: u32) -> u64 {
    let mut fq = FqCodel::new(&Settings {
        limit: load.limit,
        flows: load.flows,
        quantum: 1514,
        target: 5_000_000,
        interval: 100_000_000,
        ecn: false,
        drop_batch: load.drop_batch,
        mtu: MTU,
    });
    pass_flows(&mut fq, load, hashes, passes).unwrap_or(0)
}

fn pass_flows(fq: &mut FqCodel, load: &FlowLoad, hashes: &[u32], passes: u32) -> Option<u64> {
    let made = hashed(hashes)?;
    let mut signals = Signals::default();
    for (_, packet) in (0..load.queued).zip(made.iter().cycle()) {
        put_flow(fq, &mut signals, packet, load.drop_batch)?;
    }
    let mut out = Packet::NONE;
    let mut sum = 1;
    for _ in 0..passes {
        for packet in &made {
            sum = with(sum, put_flow(fq, &mut signals, packet, load.drop_batch)?);
            if load.takes {
                signals.reserve(fq.queued().0 as usize)?;
                if fq.take_into(0, &mut signals, &mut out) == 0 {
                    return None;
                }
                sum = with(sum, out.number);
            }
            while let Some(lost) = signals.lost.pop_front() {
                sum = with(sum, lost.packet.number);
            }
        }
    }
    let (packets, bytes) = fq.queued();
    Some(with(with(sum, packets), bytes))
}

/// 1 where the packet that is put is itself lost, else 0.
#[inline(always)]
fn put_flow(fq: &mut FqCodel, signals: &mut Signals, packet: &Packet, drop_batch: u32) -> Option<u64> {
    signals.reserve(drop_batch as usize)?;
    match fq.put(packet, 0, signals) {
        Put::Kept => Some(0),
        Put::Lost(_) => Some(1),
        Put::NoMemory => None,
    }
}
