//! A ring of packets. One is copied once where it is put, and once where it is taken.

use super::codel::Queue;
use super::packet::{Cause, Packet, Put, Stamped};
use super::place::{at, at_mut};
use super::signals::Signals;

pub enum Limit {
    Packets(u64),
    Bytes(u64),
}

pub struct Fifo {
    ring: Vec<Stamped>,
    first: usize,
    count: usize,
    bytes: u64,
    pub limit: Limit,
}

impl Fifo {
    pub fn new(limit: Limit) -> Fifo {
        Fifo {
            ring: Vec::new(),
            first: 0,
            count: 0,
            bytes: 0,
            limit,
        }
    }

    pub fn count(&self) -> u64 {
        self.count as u64
    }

    #[inline(always)]
    fn fits(&self, len: u16) -> bool {
        match self.limit {
            Limit::Packets(most) => (self.count as u64) < most,
            Limit::Bytes(most) => self.bytes + u64::from(len) <= most,
        }
    }

    #[inline(always)]
    pub fn put(&mut self, packet: &Packet, now: u64, signals: &mut Signals) -> Put {
        if !self.fits(packet.len) {
            return signals.refuse(packet, Cause::OverLimit);
        }
        if self.count == self.ring.len() && self.grow().is_none() {
            return Put::NoMemory;
        }
        let last = self.place(self.count);
        let stamped = at_mut(&mut self.ring, last);
        stamped.packet = *packet;
        stamped.at = now;
        self.count += 1;
        self.bytes += u64::from(packet.len);
        Put::Kept
    }

    /// The length of the first packet, 0 for none.
    #[inline(always)]
    pub fn head_len(&self) -> u16 {
        if self.count == 0 {
            return 0;
        }
        at(&self.ring, self.first).packet.len
    }

    /// The length of the packet that is given, 0 for none.
    #[inline(always)]
    pub fn take_into(&mut self, out: &mut Packet) -> u16 {
        if self.count == 0 {
            return 0;
        }
        let packet = &at(&self.ring, self.first).packet;
        *out = *packet;
        let len = packet.len;
        self.step(len);
        len
    }

    #[inline(always)]
    fn step(&mut self, len: u16) {
        self.first = self.place(1);
        self.count -= 1;
        self.bytes -= u64::from(len);
    }

    /// The place so many behind the first.
    #[inline(always)]
    fn place(&self, behind: usize) -> usize {
        let place = self.first + behind;
        if place >= self.ring.len() {
            place - self.ring.len()
        } else {
            place
        }
    }

    /// A ring of twice as many places, from its first; `None` if an allocation fails.
    #[cold]
    #[inline(never)]
    fn grow(&mut self) -> Option<()> {
        let places = (2 * self.ring.len()).max(4);
        let mut ring = Vec::new();
        ring.try_reserve_exact(places).ok()?;
        ring.extend_from_slice(&self.ring[self.first..]);
        ring.extend_from_slice(&self.ring[..self.first]);
        ring.resize(places, Stamped::NONE);
        self.ring = ring;
        self.first = 0;
        Some(())
    }
}

impl Queue for Fifo {
    #[inline(always)]
    fn head(&self) -> Option<&Stamped> {
        if self.count == 0 {
            None
        } else {
            Some(at(&self.ring, self.first))
        }
    }

    #[inline(always)]
    fn bytes(&self) -> u64 {
        self.bytes
    }

    fn drop_head(&mut self, signals: &mut Signals) {
        let packet = &self.ring[self.first].packet;
        let len = packet.len;
        signals.drop(packet, Cause::Codel);
        self.step(len);
    }

    #[inline(always)]
    fn take_into(&mut self, out: &mut Packet) -> u16 {
        Fifo::take_into(self, out)
    }
}
