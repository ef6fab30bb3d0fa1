//! FQ-CoDel (RFC 8290) with CoDel (RFC 8289, section 5) that decides on the first packet without moving it.

use super::flow::{Ends, Flow, Listed};
use super::slab::Slab;
use super::winners::Winners;
use crate::plain::flows::Settings;
use crate::plain::gap::gap;
use crate::plain::head::Ecn;
use crate::plain::packet::{Cause, Packet, Put};
use crate::plain::place::{at, at_mut};
use crate::plain::signals::Signals;

/// Keeps its tournament tree `ALWAYS`, at each put and take, or only near the limit.
pub struct FqCodel<const ALWAYS: bool> {
    settings: Settings,
    /// In place of a division, where the number of flows is a power of two.
    mask: Option<u32>,
    slab: Slab,
    table: Vec<Flow>,
    fresh: Ends,
    stale: Ends,
    count: u32,
    winners: Winners,
}

impl<const ALWAYS: bool> FqCodel<ALWAYS> {
    pub fn new(settings: Settings) -> FqCodel<ALWAYS> {
        let flows = settings.flows;
        let mut winners = Winners::new(flows as usize);
        if ALWAYS {
            winners.arm((0..flows).map(|_| 0));
        }
        FqCodel {
            settings,
            mask: flows.is_power_of_two().then(|| flows - 1),
            slab: Slab::new(),
            table: vec![Flow::EMPTY; flows as usize],
            fresh: Ends::default(),
            stale: Ends::default(),
            count: 0,
            winners,
        }
    }

    #[inline(never)]
    pub fn put(&mut self, packet: &Packet, now: u64, signals: &mut Signals) -> Put {
        if self.slab.reserve().is_none() {
            return Put::NoMemory;
        }
        let index = match self.mask {
            Some(mask) => packet.hash & mask,
            None => packet.hash % self.settings.flows,
        };
        let place = self.slab.fill(packet, now);
        let flow = at_mut(&mut self.table, index as usize);
        if flow.count == 0 {
            flow.head = place;
        } else {
            self.slab.link(flow.tail, place);
        }
        flow.tail = place;
        flow.count += 1;
        flow.bytes += u64::from(packet.len);
        let bytes = flow.bytes;
        if flow.listed == Listed::Nowhere {
            flow.credits = self.settings.quantum.into();
            self.fresh.append(&mut self.table, index as u16, Listed::Fresh);
        }
        self.count += 1;
        if ALWAYS {
            self.winners.raise(index, bytes);
            if self.count <= self.settings.limit {
                return Put::Kept;
            }
            return self.shed(index, signals);
        }
        if self.winners.armed || self.count > self.settings.limit {
            return self.put_late(index, signals);
        }
        Put::Kept
    }

    /// What follows a put into this flow, where the limit is near.
    #[inline(never)]
    fn put_late(&mut self, index: u32, signals: &mut Signals) -> Put {
        if self.winners.armed {
            self.winners.renew(index, at(&self.table, index as usize).bytes);
        } else {
            self.winners.arm(self.table.iter().map(|flow| flow.bytes));
        }
        if self.count <= self.settings.limit {
            return Put::Kept;
        }
        self.shed(index, signals)
    }

    /// The batch that the fat flow loses after a put into this flow.
    #[inline(never)]
    fn shed(&mut self, index: u32, signals: &mut Signals) -> Put {
        let fat = self.winners.top();
        let held = at(&self.table, fat as usize).count;
        let batch = held.min(self.count - 1).min(self.settings.drop_batch);
        for _ in 0..batch {
            self.drop_head(fat as usize, Cause::FatFlow, signals);
        }
        self.winners.lower(fat, at(&self.table, fat as usize).bytes);
        if fat == index && held <= batch {
            Put::Lost(Cause::FatFlow)
        } else {
            Put::Kept
        }
    }

    /// The length of the packet that is given, 0 for none.
    #[inline(never)]
    pub fn take_into(&mut self, now: u64, signals: &mut Signals, out: &mut Packet) -> u16 {
        loop {
            let is_fresh = self.fresh.count > 0;
            let ends = if is_fresh { &mut self.fresh } else { &mut self.stale };
            if ends.count == 0 {
                return 0;
            }
            let index = ends.head;
            let flow = at_mut(&mut self.table, index.into());
            let is_spent = flow.credits <= 0;
            if !is_spent && flow.count > 0 {
                return self.send(index, now, signals, out);
            }
            ends.head = flow.next;
            ends.count -= 1;
            if is_spent {
                flow.credits += i64::from(self.settings.quantum);
            } else {
                flow.above = 0;
                flow.dropping = false;
            }
            if is_fresh || is_spent {
                self.stale.append(&mut self.table, index, Listed::Stale);
            } else {
                flow.listed = Listed::Nowhere;
            }
        }
    }

    /// The length of the flow's packet that is given, 0 where all that it has are lost.
    #[inline(always)]
    fn send(&mut self, index: u16, now: u64, signals: &mut Signals, out: &mut Packet) -> u16 {
        let flow = at_mut(&mut self.table, index.into());
        let head = self.slab.at(flow.head);
        let behind = flow.bytes - u64::from(head.packet.len);
        let is_old = now.saturating_sub(head.at) >= self.settings.target;
        let stands = is_old && behind > u64::from(self.settings.mtu);
        if flow.is_late(stands, now) {
            return self.send_late(index, now, signals, out);
        }
        flow.dropping = false;
        flow.watch(stands, now, self.settings.interval);
        self.give(index, out)
    }

    /// Gives the head of a flow that has one.
    #[inline(always)]
    fn give(&mut self, index: u16, out: &mut Packet) -> u16 {
        let flow = at_mut(&mut self.table, index.into());
        let place = flow.head;
        let slot = self.slab.at(place);
        let len = slot.packet.len;
        *out = slot.packet;
        flow.head = slot.next;
        flow.count -= 1;
        flow.bytes -= u64::from(len);
        flow.credits -= i64::from(len);
        let bytes = flow.bytes;
        self.slab.release(place);
        self.count -= 1;
        if ALWAYS {
            self.winners.lower(index.into(), bytes);
        } else if self.winners.armed {
            self.winners.lower(index.into(), bytes);
            self.winners.armed = self.count > self.settings.limit / 2;
        }
        len
    }

    #[inline(always)]
    fn drop_head(&mut self, index: usize, cause: Cause, signals: &mut Signals) {
        let flow = at_mut(&mut self.table, index);
        let place = flow.head;
        let slot = self.slab.at(place);
        let len = slot.packet.len;
        signals.drop(&slot.packet, cause);
        flow.head = slot.next;
        flow.count -= 1;
        flow.bytes -= u64::from(len);
        self.slab.release(place);
        self.count -= 1;
    }
}

/// CoDel's rare way.
impl<const ALWAYS: bool> FqCodel<ALWAYS> {
    #[cold]
    #[inline(never)]
    fn send_late(&mut self, index: u16, now: u64, signals: &mut Signals, out: &mut Packet) -> u16 {
        let is_marked = if self.table[usize::from(index)].dropping {
            self.go_on(index.into(), now, signals)
        } else {
            self.begin(index.into(), now, signals)
        };
        let stands = self.stands(index.into(), now);
        let interval = self.settings.interval;
        let flow = &mut self.table[usize::from(index)];
        flow.watch(stands, now, interval);
        if flow.count == 0 {
            if self.winners.armed {
                self.winners.renew(index.into(), 0);
            }
            return 0;
        }
        let len = self.give(index, out);
        if is_marked {
            out.ecn = Ecn::Ce;
            signals.mark(len);
        }
        len
    }

    /// Whether the head waits for too long with more than one packet's bytes behind it.
    fn stands(&self, index: usize, now: u64) -> bool {
        let flow = &self.table[index];
        if flow.count == 0 {
            return false;
        }
        let head = self.slab.at(flow.head);
        let behind = flow.bytes - u64::from(head.packet.len);
        now.saturating_sub(head.at) >= self.settings.target && behind > u64::from(self.settings.mtu)
    }

    fn is_markable(&self, index: usize) -> bool {
        let flow = &self.table[index];
        self.settings.ecn && flow.count > 0 && self.slab.at(flow.head).packet.ecn != Ecn::NotEct
    }

    /// Begins to drop: loses the head, unless it can be marked.
    fn begin(&mut self, index: usize, now: u64, signals: &mut Signals) -> bool {
        let interval = self.settings.interval;
        let flow = &mut self.table[index];
        let more = flow.drops - flow.last_drops;
        let is_recent = now < flow.drop_next + 16 * interval;
        flow.drops = if more > 1 && is_recent { more } else { 1 };
        flow.last_drops = flow.drops;
        flow.dropping = true;
        flow.drop_next = now + gap(interval, flow.drops);
        if self.is_markable(index) {
            return true;
        }
        self.drop_head(index, Cause::Codel, signals);
        false
    }

    /// Loses as many heads as are due, up to one that can be marked.
    fn go_on(&mut self, index: usize, now: u64, signals: &mut Signals) -> bool {
        let interval = self.settings.interval;
        while self.table[index].drop_next <= now {
            let drops = self.table[index].drops.saturating_add(1);
            self.table[index].drops = drops;
            if self.is_markable(index) {
                self.table[index].drop_next += gap(interval, drops);
                return true;
            }
            self.drop_head(index, Cause::Codel, signals);
            let stands = self.stands(index, now);
            if !self.table[index].is_late(stands, now) {
                self.table[index].dropping = false;
                break;
            }
            self.table[index].drop_next += gap(interval, drops);
        }
        false
    }
}
