//! A device: a tree of qdiscs under a clock, with what it counted, lost and recorded.

use super::node::Node;
use crate::plain::fifo::Limit;
use crate::plain::packet::{Cause, Lost, Packet, Put};
use crate::plain::row::Row;
use crate::plain::signals::Signals;

#[allow(dead_code, reason = "nothing here reads what was recorded")]
enum Event {
    Arrive(Packet, u64),
    Poll(u64),
}

/// What a poll returns; a packet is written to the place that the caller lends.
pub enum Polled {
    Packet,
    Idle,
    Later,
}

pub struct Device {
    clock: u64,
    pub mtu: u16,
    pub txqueuelen: u32,
    events: u64,
    pub top: Row,
    signals: Signals,
    pub root: Node,
    /// The first events, so many at most.
    recorded: Vec<Event>,
    recorder: usize,
    /// Whether an fq_codel that is added keeps its tournament tree only near the limit.
    pub lazy: bool,
}

impl Device {
    pub fn new(mtu: u16, txqueuelen: u32, recorder: usize) -> Device {
        Device {
            clock: 0,
            mtu,
            txqueuelen,
            events: 0,
            top: Row::default(),
            signals: Signals::default(),
            root: Node::fifo(Limit::Packets(txqueuelen.into())),
            recorded: Vec::with_capacity(recorder),
            recorder,
            lazy: false,
        }
    }

    /// There is room for the loss of all that is queued.
    #[inline(never)]
    pub fn arrive(&mut self, packet: &Packet, now: u64) -> Put {
        let now = self.clock.max(now);
        if self.reserve().is_none() {
            return Put::NoMemory;
        }
        let put = if packet.len > self.mtu {
            self.signals.refuse(packet, Cause::TooLong)
        } else {
            self.root.put(packet, now, &mut self.signals)
        };
        if matches!(put, Put::NoMemory) {
            return put;
        }
        self.top.arrive(packet.len);
        self.settle(now);
        if self.recorded.len() < self.recorder {
            self.record_arrival(packet, now);
        }
        put
    }

    #[inline(never)]
    pub fn poll(&mut self, now: u64, out: &mut Packet) -> Polled {
        let now = self.clock.max(now);
        let len = self.root.take_into(now, &mut self.signals, out);
        self.settle(now);
        if self.recorded.len() < self.recorder {
            self.record_poll(now);
        }
        if len != 0 {
            self.top.send(len);
            Polled::Packet
        } else if self.top.queued() == 0 {
            Polled::Idle
        } else {
            Polled::Later
        }
    }

    /// Room for the loss of the packets that are queued and of one more.
    #[inline(always)]
    fn reserve(&mut self) -> Option<()> {
        let most = self.top.queued() as usize + 1;
        let lost = &self.signals.lost;
        if lost.capacity() - lost.len() >= most {
            return Some(());
        }
        self.reserve_more(most)
    }

    #[cold]
    #[inline(never)]
    fn reserve_more(&mut self, packets: usize) -> Option<()> {
        self.signals.lost.try_reserve(packets).ok()
    }

    /// Books what a call lost and marked.
    #[inline(always)]
    fn settle(&mut self, now: u64) {
        if self.signals.any {
            self.top.book(&self.signals.sums);
            self.signals.clean();
        }
        self.clock = now;
        self.events = self.events.saturating_add(1);
    }

    #[cold]
    #[inline(never)]
    fn record_arrival(&mut self, packet: &Packet, now: u64) {
        self.recorded.push(Event::Arrive(*packet, now));
    }

    #[cold]
    #[inline(never)]
    fn record_poll(&mut self, now: u64) {
        self.recorded.push(Event::Poll(now));
    }

    /// The oldest loss that was not handed out yet.
    #[inline(always)]
    pub fn reap(&mut self) -> Option<Lost> {
        self.signals.lost.pop_front()
    }
}
