//! The workloads of `crates/q_bench/src/devices.rt`.

use super::device::{Device, Polled};
use crate::inputs::{Lines, Plan};
use crate::plain::head::{Ecn, FlowKey};
use crate::plain::line::{Line, read_line};
use crate::plain::packet::{Packet, Put};
use crate::plain::row::{Row, Totals};

const MTU: u16 = 1514;
const LEN: u16 = 1000;
const TXQUEUELEN: u32 = 200_000;
const STEP: u64 = 100;
const LATEST: u64 = 1 << 62;

fn with(sum: u64, value: u64) -> u64 {
    sum.rotate_left(5).wrapping_add(value)
}

/// The packets of a plan in their order; `None` where a number is out of range.
fn made(plan: &Plan) -> Option<Vec<Packet>> {
    (0..plan.hashes.len()).map(|i| packet_at(plan, i)).collect()
}

fn packet_at(plan: &Plan, i: usize) -> Option<Packet> {
    let key = FlowKey {
        family: 4,
        proto: 17,
        src: 0x0a00_0001,
        dst: 0x0a00_0002,
        sport: 1000,
        dport: *plan.ports.get(i)?,
    };
    let prio = *plan.prios.get(i)?;
    if prio > 15 {
        return None;
    }
    Some(Packet {
        port: 1,
        number: i as u64,
        buf: 2,
        len: LEN,
        key,
        hash: *plan.hashes.get(i)?,
        prio,
        ecn: if plan.ecn { Ecn::Ect0 } else { Ecn::NotEct },
    })
}

/// A device in which packets are queued, and where its clock and the checksum are then.
struct Ready {
    device: Device,
    now: u64,
    sum: u64,
}

/// With `lazy`, each fq_codel keeps its tournament tree only near the limit.
#[inline(never)]
pub fn pairs(lines: &Lines, plan: &Plan, queued: u32, lazy: bool, step: u32, passes: u32) -> u64 {
    pass_pairs(lines, plan, queued, lazy, step, passes).unwrap_or(0)
}

fn pass_pairs(lines: &Lines, plan: &Plan, queued: u32, lazy: bool, step: u32, passes: u32) -> Option<u64> {
    let made = made(plan)?;
    let Ready {
        mut device,
        mut now,
        mut sum,
    } = ready(lines, &made, queued, lazy)?;
    let mut out = Packet::NONE;
    for _ in 0..passes {
        for packet in &made {
            now = later(now, step.into())?;
            sum = with(sum, arrive(&mut device, packet, now)?);
            sum = with(sum, polled(&mut device, now, &mut out));
        }
    }
    Some(with_counts(&mut device, sum))
}

#[inline(never)]
pub fn losses(lines: &Lines, plan: &Plan, queued: u32, waits: &[u32]) -> u64 {
    pass_losses(lines, plan, queued, waits).unwrap_or(0)
}

fn pass_losses(lines: &Lines, plan: &Plan, queued: u32, waits: &[u32]) -> Option<u64> {
    let made = made(plan)?;
    let Ready {
        mut device,
        mut now,
        mut sum,
    } = ready(lines, &made, queued, false)?;
    let mut out = Packet::NONE;
    let mut next = 0;
    for wait in waits {
        now = later(now, (*wait).into())?;
        sum = with(sum, arrive(&mut device, made.get(next)?, now)?);
        sum = with(sum, arrive(&mut device, made.get(next + 1)?, now)?);
        sum = with(sum, polled(&mut device, now, &mut out));
        while let Some(lost) = device.reap() {
            sum = with(sum, lost.packet.number ^ (lost.cause as u64) << 32);
        }
        next = if next + 3 < made.len() { next + 2 } else { 0 };
    }
    Some(with_counts(&mut device, sum))
}

#[inline(never)]
pub fn harness(plan: &Plan, step: u32, passes: u32) -> u64 {
    let Some(made) = made(plan) else {
        return 0;
    };
    pass_wire(&made, step, passes).unwrap_or(0)
}

fn pass_wire(made: &[Packet], step: u32, passes: u32) -> Option<u64> {
    let (mut now, mut sum) = (0, 1);
    for _ in 0..passes {
        for packet in made {
            now = later(now, step.into())?;
            sum = with(sum, now);
            sum = with(sum, summary(packet));
        }
    }
    Some(sum)
}

fn ready(lines: &Lines, made: &[Packet], queued: u32, lazy: bool) -> Option<Ready> {
    let mut device = Device::new(MTU, TXQUEUELEN, 0);
    device.lazy = lazy;
    set_up(&mut device, lines)?;
    let (mut now, mut sum) = (0, 1);
    for (_, packet) in (0..queued).zip(made.iter().cycle()) {
        now = later(now, STEP)?;
        sum = with(sum, arrive(&mut device, packet, now)?);
    }
    Some(Ready { device, now, sum })
}

fn set_up(device: &mut Device, lines: &Lines) -> Option<()> {
    let mut start = 0;
    for end in &lines.ends {
        let end = *end as usize;
        let Ok(Line::Tc(command)) = read_line(lines.text.get(start..end)?) else {
            return None;
        };
        device.command(&command)?;
        start = end;
    }
    Some(())
}

#[inline(always)]
fn later(now: u64, step: u64) -> Option<u64> {
    Some(now + step).filter(|next| *next <= LATEST)
}

/// The number of the cause where the packet is lost, else 0.
#[inline(always)]
fn arrive(device: &mut Device, packet: &Packet, now: u64) -> Option<u64> {
    match device.arrive(packet, now) {
        Put::Kept => Some(0),
        Put::Lost(cause) => Some(cause as u64),
        Put::NoMemory => None,
    }
}

#[inline(always)]
fn polled(device: &mut Device, now: u64, out: &mut Packet) -> u64 {
    match device.poll(now, out) {
        Polled::Packet => summary(out),
        Polled::Idle => 1 << 60,
        Polled::Later => 2 << 60,
    }
}

#[inline(always)]
fn summary(packet: &Packet) -> u64 {
    packet.number ^ u64::from(packet.hash) << 16 ^ u64::from(packet.len) << 32 ^ (packet.ecn as u64) << 48
}

/// The checksum with what was counted at the device, the root and the class 1:1.
fn with_counts(device: &mut Device, sum: u64) -> u64 {
    let sum = with_row(sum, &device.top);
    let sum = with_row(sum, &device.root.row);
    match device.class(1, 1) {
        Some(class) => with_row(sum, &class.row),
        None => sum,
    }
}

fn with_row(sum: u64, row: &Row) -> u64 {
    let with_totals = |sum, totals: &Totals| with(with(sum, totals.packets), totals.bytes);
    row.totals().iter().fold(sum, with_totals)
}
