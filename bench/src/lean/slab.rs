//! The places of all packets of an fq_codel, of which the vacant ones are linked.

use crate::plain::packet::{Packet, Stamped};
use crate::plain::place::{at, at_mut};

/// No place.
pub const NONE: u32 = u32::MAX;

pub struct Slab {
    places: Vec<Stamped>,
    vacant: u32,
}

impl Slab {
    pub fn new() -> Slab {
        Slab {
            places: Vec::new(),
            vacant: NONE,
        }
    }

    /// Makes sure of a vacant place; `None` if an allocation fails.
    #[inline(always)]
    pub fn reserve(&mut self) -> Option<()> {
        if self.vacant == NONE { self.grow() } else { Some(()) }
    }

    #[cold]
    #[inline(never)]
    fn grow(&mut self) -> Option<()> {
        let old = self.places.len();
        let more = old.max(64);
        self.places.try_reserve(more).ok()?;
        self.places.resize(old + more, Stamped::NONE);
        for place in (old..old + more).rev() {
            self.release(place as u32);
        }
        Some(())
    }

    /// The place that the packet was copied into. One is vacant.
    #[inline(always)]
    pub fn fill(&mut self, packet: &Packet, now: u64) -> u32 {
        let place = self.vacant;
        let slot = at_mut(&mut self.places, place as usize);
        self.vacant = slot.next;
        slot.packet = *packet;
        slot.at = now;
        place
    }

    #[inline(always)]
    pub fn link(&mut self, place: u32, next: u32) {
        at_mut(&mut self.places, place as usize).next = next;
    }

    #[inline(always)]
    pub fn release(&mut self, place: u32) {
        at_mut(&mut self.places, place as usize).next = self.vacant;
        self.vacant = place;
    }

    #[inline(always)]
    pub fn at(&self, place: u32) -> &Stamped {
        at(&self.places, place as usize)
    }
}
