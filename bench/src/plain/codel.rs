//! CoDel as RFC 8289, section 5, gives it. It decides on the first packet without moving it.

use super::gap::gap;
use super::head::Ecn;
use super::packet::{Packet, Stamped};
use super::signals::Signals;

/// What CoDel asks of a queue.
pub trait Queue {
    fn head(&self) -> Option<&Stamped>;

    /// The bytes of all packets, the head's among them.
    fn bytes(&self) -> u64;

    /// Loses the head. There is one.
    fn drop_head(&mut self, signals: &mut Signals);

    /// The length of the head, which is given; 0 for none.
    fn take_into(&mut self, out: &mut Packet) -> u16;
}

/// What is set of CoDel, for all flows of an fq_codel alike.
pub struct Law {
    pub target: u64,
    pub interval: u64,
    pub mtu: u64,
    pub ecn: bool,
}

impl Law {
    /// Whether the head waits for too long with more than one packet's bytes behind it.
    #[inline(always)]
    fn stands(&self, head: &Stamped, bytes: u64, now: u64) -> bool {
        let behind = bytes - u64::from(head.packet.len);
        now.saturating_sub(head.at) >= self.target && behind > self.mtu
    }
}

#[derive(Clone, Copy, Default)]
pub struct Codel {
    above: u64,
    drop_next: u64,
    pub count: u32,
    lastcount: u32,
    dropping: bool,
}

impl Codel {
    /// What a take from an empty queue leaves.
    #[inline(always)]
    pub fn rest(&mut self) {
        self.above = 0;
        self.dropping = false;
    }

    /// The length of the packet that is given, 0 for none.
    #[inline(always)]
    pub fn take_into(&mut self, law: &Law, queue: &mut impl Queue, now: u64, signals: &mut Signals, out: &mut Packet) -> u16 {
        let Some(head) = queue.head() else {
            self.rest();
            return 0;
        };
        let stands = law.stands(head, queue.bytes(), now);
        if self.is_late(stands, now) {
            return self.take_late(law, queue, now, signals, out);
        }
        self.dropping = false;
        self.watch(law, stands, now);
        queue.take_into(out)
    }

    /// Whether the queue has been above target for an interval.
    #[inline(always)]
    fn is_late(&self, stands: bool, now: u64) -> bool {
        stands && self.above > 0 && self.above <= now
    }

    #[inline(always)]
    fn watch(&mut self, law: &Law, stands: bool, now: u64) {
        if !stands {
            self.above = 0;
        } else if self.above == 0 {
            self.above = now + law.interval;
        }
    }

    #[cold]
    #[inline(never)]
    fn take_late(&mut self, law: &Law, queue: &mut impl Queue, now: u64, signals: &mut Signals, out: &mut Packet) -> u16 {
        let is_marked = if self.dropping {
            self.go_on(law, queue, now, signals)
        } else {
            self.begin(law, queue, now, signals)
        };
        let stands = queue.head().is_some_and(|head| law.stands(head, queue.bytes(), now));
        self.watch(law, stands, now);
        let len = queue.take_into(out);
        if is_marked {
            out.ecn = Ecn::Ce;
            signals.mark(len);
        }
        len
    }

    /// Begins to drop: loses the head, unless it can be marked.
    fn begin(&mut self, law: &Law, queue: &mut impl Queue, now: u64, signals: &mut Signals) -> bool {
        let delta = self.count - self.lastcount;
        let is_recent = now < self.drop_next + 16 * law.interval;
        self.count = if delta > 1 && is_recent { delta } else { 1 };
        self.lastcount = self.count;
        self.dropping = true;
        self.drop_next = now + gap(law.interval, self.count);
        if is_markable(law, queue) {
            return true;
        }
        queue.drop_head(signals);
        false
    }

    /// Loses as many heads as are due, up to one that can be marked.
    fn go_on(&mut self, law: &Law, queue: &mut impl Queue, now: u64, signals: &mut Signals) -> bool {
        while self.drop_next <= now {
            self.count = self.count.saturating_add(1);
            if is_markable(law, queue) {
                self.drop_next += gap(law.interval, self.count);
                return true;
            }
            queue.drop_head(signals);
            let stands = queue.head().is_some_and(|head| law.stands(head, queue.bytes(), now));
            if !self.is_late(stands, now) {
                self.dropping = false;
                break;
            }
            self.drop_next += gap(law.interval, self.count);
        }
        false
    }
}

fn is_markable(law: &Law, queue: &impl Queue) -> bool {
    law.ecn && queue.head().is_some_and(|head| head.packet.ecn != Ecn::NotEct)
}
