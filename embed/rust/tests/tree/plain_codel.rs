//! CoDel on one queue by the text of RFC 8289, for the comparison in `fq_codel_twins`. Times are in
//! nanoseconds.
use qtree::{Packet, Qdisc};
use std::collections::VecDeque;

/// The options of an fq_codel.
#[derive(Clone, Copy, Debug, PartialEq, Eq)]
pub struct Options {
    pub limit: u64,
    pub flows: u32,
    pub quantum: u32,
    pub target: u64,
    pub interval: u64,
    pub ecn: bool,
    pub drop_batch: u32,
    pub mtu: u16,
}

impl Options {
    /// Those of a qdisc, if it is an fq_codel.
    pub fn of(qdisc: Qdisc) -> Option<Options> {
        let Qdisc::FqCodel(it) = qdisc else {
            return None;
        };
        Some(Options {
            limit: it.limit,
            flows: it.flows,
            quantum: it.quantum,
            target: it.target,
            interval: it.interval,
            ecn: it.ecn,
            drop_batch: it.drop_batch,
            mtu: it.mtu,
        })
    }
}

/// The packets of a flow, each with the time at which it was queued, and their bytes.
#[derive(Default)]
pub struct Queue {
    packets: VecDeque<(Packet, u64)>,
    bytes: u64,
}

impl Queue {
    pub fn push(&mut self, packet: Packet, now: u64) {
        self.bytes += u64::from(packet.len());
        self.packets.push_back((packet, now));
    }

    pub fn pop(&mut self) -> Option<Packet> {
        let (packet, _) = self.packets.pop_front()?;
        self.bytes -= u64::from(packet.len());
        Some(packet)
    }

    pub fn packets(&self) -> u64 {
        self.packets.len() as u64
    }

    pub fn bytes(&self) -> u64 {
        self.bytes
    }

    fn front(&self) -> Option<&Packet> {
        self.packets.front().map(|(packet, _)| packet)
    }
}

/// What CoDel keeps of a queue.
#[derive(Default)]
pub struct Codel {
    first_above_time: u64,
    drop_next: u64,
    count: u64,
    lastcount: u64,
    dropping: bool,
}

impl Codel {
    /// The next packet to send, and whether it is marked. What is dropped before it is added to
    /// `dropped`. A mark takes the place of a drop, and its packet is the one that is sent.
    pub fn poll(
        &mut self,
        queue: &mut Queue,
        options: &Options,
        now: u64,
        dropped: &mut Vec<Packet>,
    ) -> Option<(Packet, bool)> {
        if !self.is_late(queue, options, now) {
            self.dropping = false;
        } else if self.dropping {
            if self.go_on(queue, options, now, dropped) {
                return Some((queue.pop()?, true));
            }
        } else {
            self.begin(options, now);
            if is_markable(queue, options) {
                return Some((queue.pop()?, true));
            }
            dropped.extend(queue.pop());
            // The next one goes, late or not; but the time above the target goes by it.
            self.is_late(queue, options, now);
        }
        Some((queue.pop()?, false))
    }

    /// Drops heads while it is time, and says whether the head that is left is marked.
    fn go_on(
        &mut self,
        queue: &mut Queue,
        options: &Options,
        now: u64,
        dropped: &mut Vec<Packet>,
    ) -> bool {
        while self.drop_next <= now {
            self.count += 1;
            let marked = is_markable(queue, options);
            if !marked {
                dropped.extend(queue.pop());
                if !self.is_late(queue, options, now) {
                    self.dropping = false;
                    return false;
                }
            }
            self.drop_next += gap(options.interval, self.count);
            if marked {
                return true;
            }
        }
        false
    }

    /// Dropping begins (section 5.5), with the count of the last time if that was lately.
    fn begin(&mut self, options: &Options, now: u64) {
        let delta = self.count - self.lastcount;
        let is_recent = now < self.drop_next + 16 * options.interval;
        self.count = if delta > 1 && is_recent { delta } else { 1 };
        self.lastcount = self.count;
        self.drop_next = now + gap(options.interval, self.count);
        self.dropping = true;
    }

    /// Whether the queue has stood for an interval (section 5.6, `dodequeue`). With an mtu or less
    /// behind its head it does not stand.
    fn is_late(&mut self, queue: &Queue, options: &Options, now: u64) -> bool {
        let stands = queue.packets.front().is_some_and(|(packet, at)| {
            let behind = queue.bytes - u64::from(packet.len());
            now - at >= options.target && behind > options.mtu.into()
        });
        if !stands {
            self.first_above_time = 0;
        } else if self.first_above_time == 0 {
            self.first_above_time = now + options.interval;
            return false;
        }
        stands && self.first_above_time <= now
    }
}

fn is_markable(queue: &Queue, options: &Options) -> bool {
    options.ecn && queue.front().is_some_and(|packet| packet.ecn() != 0)
}

/// The interval over the square root of the count, rounded down.
fn gap(interval: u64, count: u64) -> u64 {
    let square = u128::from(interval) * u128::from(interval);
    (square / u128::from(count)).isqrt() as u64
}
