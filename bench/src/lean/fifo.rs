//! A ring of packets, which has a power of two of places.

use crate::plain::fifo::Limit;
use crate::plain::packet::{Cause, Packet, Put, Stamped};
use crate::plain::place::{at, at_mut};
use crate::plain::signals::Signals;

pub struct Fifo {
    ring: Vec<Stamped>,
    first: usize,
    count: usize,
    bytes: u64,
    limit: Limit,
}

impl Fifo {
    pub fn new(limit: Limit) -> Fifo {
        Fifo {
            ring: Vec::new(),
            first: 0,
            count: 0,
            bytes: 0,
            limit,
        }
    }

    #[inline(always)]
    fn fits(&self, len: u16) -> bool {
        match self.limit {
            Limit::Packets(most) => (self.count as u64) < most,
            Limit::Bytes(most) => self.bytes + u64::from(len) <= most,
        }
    }

    #[inline(always)]
    pub fn put(&mut self, packet: &Packet, now: u64, signals: &mut Signals) -> Put {
        if !self.fits(packet.len) {
            return signals.refuse(packet, Cause::OverLimit);
        }
        if self.count == self.ring.len() && self.grow().is_none() {
            return Put::NoMemory;
        }
        let last = (self.first + self.count) & (self.ring.len() - 1);
        let place = at_mut(&mut self.ring, last);
        place.packet = *packet;
        place.at = now;
        self.count += 1;
        self.bytes += u64::from(packet.len);
        Put::Kept
    }

    /// The length of the first packet, 0 for none.
    #[inline(always)]
    pub fn head_len(&self) -> u16 {
        if self.count == 0 {
            return 0;
        }
        at(&self.ring, self.first).packet.len
    }

    /// The length of the packet that is given, 0 for none.
    #[inline(always)]
    pub fn take_into(&mut self, out: &mut Packet) -> u16 {
        if self.count == 0 {
            return 0;
        }
        let packet = &at(&self.ring, self.first).packet;
        let len = packet.len;
        *out = *packet;
        self.first = (self.first + 1) & (self.ring.len() - 1);
        self.count -= 1;
        self.bytes -= u64::from(len);
        len
    }

    /// A ring of twice as many places, from its first; `None` if an allocation fails.
    #[cold]
    #[inline(never)]
    fn grow(&mut self) -> Option<()> {
        let places = (2 * self.ring.len()).max(4);
        let mut ring = Vec::new();
        ring.try_reserve_exact(places).ok()?;
        ring.extend_from_slice(&self.ring[self.first..]);
        ring.extend_from_slice(&self.ring[..self.first]);
        ring.resize(places, Stamped::NONE);
        self.ring = ring;
        self.first = 0;
        Some(())
    }
}
