//! The packets of all flows, in one slab, and the list of a flow through it.

use super::codel::Queue;
use super::packet::{Cause, Packet, Stamped};
use super::place::{at, at_mut};
use super::signals::Signals;

/// No place.
const NONE: u32 = u32::MAX;

/// Where a flow is listed.
#[derive(Clone, Copy, PartialEq, Eq)]
pub enum Listed {
    Nowhere,
    Fresh,
    Stale,
}

/// The packets of one flow, beside the links of the flow to others, so that a flow has 64 bytes.
#[derive(Clone, Copy)]
pub struct List {
    pub bytes: u64,
    head: u32,
    tail: u32,
    pub count: u32,
    pub next_flow: u16,
    pub listed: Listed,
}

impl List {
    pub const EMPTY: List = List {
        bytes: 0,
        head: NONE,
        tail: NONE,
        count: 0,
        next_flow: 0,
        listed: Listed::Nowhere,
    };
}

/// Places of packets, of which the vacant ones are linked.
pub struct Pool {
    slots: Vec<Stamped>,
    vacant: u32,
    pub count: u32,
    pub bytes: u64,
}

impl Pool {
    pub fn new() -> Pool {
        Pool {
            slots: Vec::new(),
            vacant: NONE,
            count: 0,
            bytes: 0,
        }
    }

    /// Makes sure of a vacant place; `None` if an allocation fails.
    #[inline(always)]
    pub fn reserve(&mut self) -> Option<()> {
        if self.vacant == NONE { self.grow() } else { Some(()) }
    }

    #[cold]
    #[inline(never)]
    fn grow(&mut self) -> Option<()> {
        let old = self.slots.len();
        let more = old.max(64);
        self.slots.try_reserve(more).ok()?;
        self.slots.resize(old + more, Stamped::NONE);
        for place in (old..old + more).rev() {
            self.release(place as u32);
        }
        Some(())
    }

    /// Puts a packet at the end of a list. A place is vacant.
    #[inline(always)]
    pub fn append(&mut self, list: &mut List, packet: &Packet, now: u64) {
        let place = self.vacant;
        let slot = at_mut(&mut self.slots, place as usize);
        self.vacant = slot.next;
        slot.packet = *packet;
        slot.at = now;
        if list.count == 0 {
            list.head = place;
        } else {
            at_mut(&mut self.slots, list.tail as usize).next = place;
        }
        list.tail = place;
        list.count += 1;
        list.bytes += u64::from(packet.len);
        self.count += 1;
        self.bytes += u64::from(packet.len);
    }

    /// Loses the first packet of a list. There is one.
    #[inline(always)]
    pub fn drop_head(&mut self, list: &mut List, cause: Cause, signals: &mut Signals) {
        let packet = &at(&self.slots, list.head as usize).packet;
        let len = packet.len;
        signals.drop(packet, cause);
        self.step(list, len);
    }

    /// Gives the place of the first packet of a list back.
    #[inline(always)]
    fn step(&mut self, list: &mut List, len: u16) {
        let place = list.head;
        list.head = at(&self.slots, place as usize).next;
        list.count -= 1;
        list.bytes -= u64::from(len);
        self.count -= 1;
        self.bytes -= u64::from(len);
        self.release(place);
    }

    #[inline(always)]
    fn release(&mut self, place: u32) {
        at_mut(&mut self.slots, place as usize).next = self.vacant;
        self.vacant = place;
    }
}

/// One flow's packets, as CoDel asks for them.
pub struct FlowQueue<'a> {
    pub pool: &'a mut Pool,
    pub list: &'a mut List,
}

impl Queue for FlowQueue<'_> {
    #[inline(always)]
    fn head(&self) -> Option<&Stamped> {
        if self.list.count == 0 {
            return None;
        }
        Some(at(&self.pool.slots, self.list.head as usize))
    }

    #[inline(always)]
    fn bytes(&self) -> u64 {
        self.list.bytes
    }

    fn drop_head(&mut self, signals: &mut Signals) {
        self.pool.drop_head(self.list, Cause::Codel, signals);
    }

    #[inline(always)]
    fn take_into(&mut self, out: &mut Packet) -> u16 {
        if self.list.count == 0 {
            return 0;
        }
        let packet = &at(&self.pool.slots, self.list.head as usize).packet;
        *out = *packet;
        let len = packet.len;
        self.pool.step(self.list, len);
        len
    }
}
