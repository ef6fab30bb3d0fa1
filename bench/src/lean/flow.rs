//! One flow of an fq_codel: its packets by their places, where it is listed, and what CoDel knows of it.

use super::slab::NONE;
use crate::plain::place::at_mut;

/// Where a flow is listed.
#[derive(Clone, Copy, PartialEq, Eq)]
pub enum Listed {
    Nowhere,
    Fresh,
    Stale,
}

/// One line of the cache.
#[repr(align(64))]
#[derive(Clone, Copy)]
pub struct Flow {
    pub bytes: u64,
    pub credits: i64,
    /// Since when the packets have been late, with an interval added; 0 where they are not.
    pub above: u64,
    pub drop_next: u64,
    pub head: u32,
    pub tail: u32,
    pub count: u32,
    pub drops: u32,
    pub last_drops: u32,
    /// The flow behind it, where it is listed.
    pub next: u16,
    pub listed: Listed,
    pub dropping: bool,
}

const _: () = assert!(size_of::<Flow>() == 64);

impl Flow {
    pub const EMPTY: Flow = Flow {
        bytes: 0,
        credits: 0,
        above: 0,
        drop_next: 0,
        head: NONE,
        tail: NONE,
        count: 0,
        drops: 0,
        last_drops: 0,
        next: 0,
        listed: Listed::Nowhere,
        dropping: false,
    };

    /// Whether the flow has been late for an interval.
    #[inline(always)]
    pub fn is_late(&self, stands: bool, now: u64) -> bool {
        stands && self.above > 0 && self.above <= now
    }

    #[inline(always)]
    pub fn watch(&mut self, stands: bool, now: u64, interval: u64) {
        if !stands {
            self.above = 0;
        } else if self.above == 0 {
            self.above = now + interval;
        }
    }
}

/// A list of flows, linked through them.
#[derive(Clone, Copy, Default)]
pub struct Ends {
    pub head: u16,
    tail: u16,
    pub count: u32,
}

impl Ends {
    #[inline(always)]
    pub fn append(&mut self, table: &mut [Flow], flow: u16, listed: Listed) {
        at_mut(table, flow.into()).listed = listed;
        if self.count == 0 {
            self.head = flow;
        } else {
            at_mut(table, self.tail.into()).next = flow;
        }
        self.tail = flow;
        self.count += 1;
    }
}
