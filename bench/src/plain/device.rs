//! A device: a tree of qdiscs under a clock, with what it counted, lost and recorded.

use super::fifo::Limit;
use super::packet::{Cause, Lost, Packet, Put};
use super::row::Row;
use super::signals::Signals;
use super::tree::Node;

#[allow(dead_code, reason = "nothing here reads what was recorded")]
pub enum Event {
    Arrive(Packet, u64),
    Poll(u64),
}

/// What a poll returns; a packet is written to the place that the caller lends.
pub enum Polled {
    Packet,
    Idle,
    Later,
}

pub struct Device {
    pub clock: u64,
    pub mtu: u16,
    pub txqueuelen: u32,
    events: u64,
    pub top: Row,
    pub signals: Signals,
    pub root: Node,
    /// The first events, so many at most.
    recorded: Vec<Event>,
    recorder: usize,
}

impl Device {
    pub fn new(mtu: u16, txqueuelen: u32, recorder: usize) -> Device {
        Device {
            clock: 0,
            mtu,
            txqueuelen,
            events: 0,
            top: Row::default(),
            signals: Signals::default(),
            root: Node::fifo(Limit::Packets(txqueuelen.into())),
            recorded: Vec::with_capacity(recorder),
            recorder,
        }
    }

    /// There is room for the loss of all that is queued.
    #[inline(never)]
    pub fn arrive(&mut self, packet: &Packet, now: u64) -> Put {
        let now = self.clock.max(now);
        if self.signals.reserve(self.top.queued() as usize + 1).is_none() {
            return Put::NoMemory;
        }
        let put = if packet.len > self.mtu {
            self.signals.refuse(packet, Cause::TooLong)
        } else {
            self.root.put(packet, now, &mut self.signals)
        };
        if matches!(put, Put::NoMemory) {
            return put;
        }
        self.top.arrive(packet.len);
        self.settle(now);
        if self.recorded.len() < self.recorder {
            self.recorded.push(Event::Arrive(*packet, now));
        }
        put
    }

    #[inline(never)]
    pub fn poll(&mut self, now: u64, out: &mut Packet) -> Polled {
        let now = self.clock.max(now);
        let len = self.root.take_into(now, &mut self.signals, out);
        self.settle(now);
        if self.recorded.len() < self.recorder {
            self.recorded.push(Event::Poll(now));
        }
        if len == 0 {
            return if self.top.queued() == 0 {
                Polled::Idle
            } else {
                Polled::Later
            };
        }
        self.top.send(len);
        Polled::Packet
    }

    /// Books what a call lost and marked.
    #[inline(always)]
    fn settle(&mut self, now: u64) {
        if self.signals.any {
            self.top.book(&self.signals.sums);
            self.signals.clean();
        }
        self.clock = now;
        self.events = self.events.saturating_add(1);
    }

    /// The oldest loss that was not handed out yet.
    #[inline(always)]
    pub fn reap(&mut self) -> Option<Lost> {
        self.signals.lost.pop_front()
    }
}
