//! A tree of qdiscs: a leaf is inlined where it is asked, and a node with classes is one call for each level. A packet is
//! counted on the way back. A qdisc that was asked for its next packet, and may not give another one then, holds it, as
//! Linux's `qdisc_peek_dequeued` does.

use super::fifo::Fifo;
use super::filters::Filters;
use super::fq_codel::FqCodel;
use crate::plain::active::{Active, Turn};
use crate::plain::bucket::Bucket;
use crate::plain::fifo::Limit;
use crate::plain::packet::{Cause, Packet, Put};
use crate::plain::place::at_mut;
use crate::plain::row::Row;
use crate::plain::signals::{Sums, Signals};

pub struct Node {
    pub row: Row,
    pub holds: bool,
    pub handle: Option<u16>,
    pub filters: Filters,
    pub discipline: Discipline,
    pub held: Packet,
}

/// Its kind is in a byte of its own, which is read at once.
#[repr(u8)]
pub enum Discipline {
    Fifo(Fifo),
    Prio {
        priomap: [u8; 16],
        bands: Vec<Node>,
    },
    Tbf {
        bucket: Bucket,
        burst: u32,
        #[allow(dead_code, reason = "the benchmark gives a tbf no other child")]
        limit: u64,
        child: Box<Node>,
    },
    /// The classes with their minor numbers, active by their places.
    Drr {
        active: Active,
        minors: Vec<u16>,
        classes: Vec<Node>,
    },
    FqCodel(Box<FqCodel<true>>),
    /// The same with a tournament tree only near the limit.
    Lazy(Box<FqCodel<false>>),
}

impl Node {
    pub fn new(handle: Option<u16>, discipline: Discipline) -> Node {
        Node {
            row: Row::default(),
            holds: false,
            handle,
            filters: Filters::default(),
            discipline,
            held: Packet::NONE,
        }
    }

    pub fn fifo(limit: Limit) -> Node {
        Node::new(None, Discipline::Fifo(Fifo::new(limit)))
    }

    #[inline(always)]
    pub fn put(&mut self, packet: &Packet, now: u64, signals: &mut Signals) -> Put {
        let put = match &mut self.discipline {
            Discipline::Fifo(fifo) => fifo.put(packet, now, signals),
            Discipline::FqCodel(queue) => queue.put(packet, now, signals),
            Discipline::Lazy(queue) => queue.put(packet, now, signals),
            _ => self.put_beneath(packet, now, signals),
        };
        if matches!(put, Put::NoMemory) {
            return put;
        }
        self.row.arrive(packet.len);
        if signals.any {
            self.row.book(&signals.sums);
        }
        put
    }

    #[inline(never)]
    fn put_beneath(&mut self, packet: &Packet, now: u64, signals: &mut Signals) -> Put {
        match &mut self.discipline {
            Discipline::Prio { priomap, bands } => {
                let place = self.filters.place_of(&packet.key);
                let place = place.unwrap_or_else(|| priomap[usize::from(packet.prio & 15)].into());
                match bands.get_mut(usize::from(place)) {
                    Some(band) => band.put(packet, now, signals),
                    None => signals.refuse(packet, Cause::NoClass),
                }
            }
            Discipline::Tbf { burst, child, .. } => {
                if u32::from(packet.len) > *burst {
                    return signals.refuse(packet, Cause::TooLong);
                }
                child.put(packet, now, signals)
            }
            Discipline::Drr { active, classes, .. } => {
                let Some(place) = self.filters.place_of(&packet.key) else {
                    return signals.refuse(packet, Cause::NoClass);
                };
                let class = at_mut(classes, place.into());
                let put = class.put(packet, now, signals);
                if matches!(put, Put::NoMemory) {
                    return put;
                }
                if signals.any && class.row.queued() == 0 {
                    active.sleep(place);
                } else {
                    active.wake(place);
                }
                put
            }
            Discipline::Fifo(_) | Discipline::FqCodel(_) | Discipline::Lazy(_) => unreachable!(),
        }
    }

    /// The length of the packet that [`Node::take_into`] gives next, 0 for none.
    #[inline(always)]
    fn peek(&mut self, now: u64, signals: &mut Signals) -> u16 {
        if let Discipline::Fifo(fifo) = &self.discipline {
            return fifo.head_len();
        }
        if self.holds {
            return self.held.len;
        }
        self.hold(now, signals)
    }

    /// Asks for the next packet, so that it is at hand: at a prio, in its band.
    #[inline(never)]
    fn hold(&mut self, now: u64, signals: &mut Signals) -> u16 {
        let len = match &mut self.discipline {
            Discipline::Prio { bands, .. } => {
                let mut before = None;
                let len = first_of(bands, signals, &mut before, |band, signals| band.peek(now, signals));
                gather(signals, &mut before);
                len
            }
            discipline => {
                let len = discipline.take_into(now, signals, &mut self.held);
                self.holds = len != 0;
                len
            }
        };
        if signals.any {
            self.row.book(&signals.sums);
        }
        len
    }

    /// The length of the packet that is given, 0 for none.
    #[inline(always)]
    pub fn take_into(&mut self, now: u64, signals: &mut Signals, out: &mut Packet) -> u16 {
        let len = if self.holds {
            self.holds = false;
            *out = self.held;
            self.held.len
        } else {
            let len = self.discipline.take_into(now, signals, out);
            if signals.any {
                self.row.book(&signals.sums);
            }
            len
        };
        if len != 0 {
            self.row.send(len);
        }
        len
    }
}

impl Discipline {
    #[inline(always)]
    fn take_into(&mut self, now: u64, signals: &mut Signals, out: &mut Packet) -> u16 {
        match self {
            Discipline::Fifo(fifo) => fifo.take_into(out),
            Discipline::FqCodel(queue) => queue.take_into(now, signals, out),
            Discipline::Lazy(queue) => queue.take_into(now, signals, out),
            _ => self.take_beneath(now, signals, out),
        }
    }

    #[inline(never)]
    fn take_beneath(&mut self, now: u64, signals: &mut Signals, out: &mut Packet) -> u16 {
        let mut before = None;
        let len = match self {
            Discipline::Prio { bands, .. } => {
                first_of(bands, signals, &mut before, |band, signals| band.take_into(now, signals, out))
            }
            Discipline::Tbf { bucket, child, .. } => {
                let len = child.peek(now, signals);
                if len != 0 && bucket.spend(now, len) {
                    part(signals, &mut before);
                    child.take_into(now, signals, out)
                } else {
                    0
                }
            }
            Discipline::Drr { active, classes, .. } => serve(active, classes, now, signals, &mut before, out),
            Discipline::Fifo(_) | Discipline::FqCodel(_) | Discipline::Lazy(_) => unreachable!(),
        };
        gather(signals, &mut before);
        len
    }
}

/// Cleans the sums for the next node that is asked.
#[inline(always)]
fn part(signals: &mut Signals, before: &mut Option<Sums>) {
    if signals.any {
        signals.fold(before);
    }
}

/// The sums of all nodes that were asked.
#[inline(always)]
fn gather(signals: &mut Signals, before: &mut Option<Sums>) {
    if before.is_some() {
        signals.unfold(before);
    }
}

/// The first length that is not 0, of the bands in their order.
#[inline(always)]
fn first_of(
    bands: &mut [Node],
    signals: &mut Signals,
    before: &mut Option<Sums>,
    mut ask: impl FnMut(&mut Node, &mut Signals) -> u16,
) -> u16 {
    for band in bands {
        let len = ask(band, signals);
        if len != 0 {
            return len;
        }
        part(signals, before);
    }
    0
}

/// The packet of the class whose turn it is.
#[inline(always)]
fn serve(
    active: &mut Active,
    classes: &mut [Node],
    now: u64,
    signals: &mut Signals,
    before: &mut Option<Sums>,
    out: &mut Packet,
) -> u16 {
    while let Some(place) = active.front() {
        let class = at_mut(classes, place.into());
        let len = class.peek(now, signals);
        if len == 0 {
            return 0;
        }
        part(signals, before);
        if active.turn(len) == Turn::Send {
            let len = class.take_into(now, signals, out);
            if class.row.queued() == 0 {
                active.sleep(place);
            }
            return len;
        }
    }
    0
}
