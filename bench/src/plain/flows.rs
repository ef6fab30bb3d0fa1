//! FQ-CoDel with the packets of all flows in one slab, the lists of flows linked through the flows, and a tournament tree.

use super::codel::{Codel, Law};
use super::packet::{Cause, Packet, Put};
use super::place::at_mut;
use super::pool::{FlowQueue, List, Listed, Pool};
use super::signals::Signals;
use super::winners::Winners;

#[derive(Clone, Copy)]
pub struct Settings {
    pub limit: u32,
    pub flows: u32,
    pub quantum: u32,
    pub target: u64,
    pub interval: u64,
    pub ecn: bool,
    pub drop_batch: u32,
    pub mtu: u16,
}

/// One line of the cache.
#[derive(Clone, Copy)]
pub struct Flow {
    pub list: List,
    credits: i64,
    codel: Codel,
}

const _: () = assert!(size_of::<Flow>() == 64);

/// A list of flows.
#[derive(Clone, Copy, Default)]
struct Ends {
    head: u16,
    tail: u16,
    count: u32,
}

impl Ends {
    #[inline(always)]
    fn append(&mut self, table: &mut [Flow], flow: u16, listed: Listed) {
        at_mut(table, flow.into()).list.listed = listed;
        if self.count == 0 {
            self.head = flow;
        } else {
            at_mut(table, self.tail.into()).list.next_flow = flow;
        }
        self.tail = flow;
        self.count += 1;
    }
}

pub struct FqCodel {
    pub limit: u32,
    pub flows: u32,
    /// In place of a division, where the number of flows is a power of two.
    mask: Option<u32>,
    pub quantum: u32,
    pub drop_batch: u32,
    pub law: Law,
    pub table: Vec<Flow>,
    winners: Winners,
    fresh: Ends,
    stale: Ends,
    pub pool: Pool,
}

impl FqCodel {
    pub fn new(settings: &Settings) -> FqCodel {
        let flows = settings.flows;
        let flow = Flow {
            list: List::EMPTY,
            credits: 0,
            codel: Codel::default(),
        };
        FqCodel {
            limit: settings.limit,
            flows,
            mask: flows.is_power_of_two().then(|| flows - 1),
            quantum: settings.quantum,
            drop_batch: settings.drop_batch,
            law: Law {
                target: settings.target,
                interval: settings.interval,
                mtu: settings.mtu.into(),
                ecn: settings.ecn,
            },
            table: vec![flow; flows as usize],
            winners: Winners::new(flows as usize),
            fresh: Ends::default(),
            stale: Ends::default(),
            pool: Pool::new(),
        }
    }

    pub fn queued(&self) -> (u64, u64) {
        (self.pool.count.into(), self.pool.bytes)
    }

    #[inline(never)]
    pub fn put(&mut self, packet: &Packet, now: u64, signals: &mut Signals) -> Put {
        if self.pool.reserve().is_none() {
            return Put::NoMemory;
        }
        let index = match self.mask {
            Some(mask) => packet.hash & mask,
            None => packet.hash % self.flows,
        };
        let flow = at_mut(&mut self.table, index as usize);
        self.pool.append(&mut flow.list, packet, now);
        let bytes = flow.list.bytes;
        if flow.list.listed == Listed::Nowhere {
            flow.credits = self.quantum.into();
            self.fresh.append(&mut self.table, index as u16, Listed::Fresh);
        }
        if self.pool.count <= self.limit {
            self.winners.renew(index, bytes);
            return Put::Kept;
        }
        self.shed(index, bytes, signals)
    }

    /// Drops a batch of the fat flow's packets, after a put into this flow, which has so many bytes then.
    #[cold]
    #[inline(never)]
    fn shed(&mut self, flow: u32, bytes: u64, signals: &mut Signals) -> Put {
        let fat = self.winners.top_with(flow, bytes);
        if fat != flow {
            self.winners.renew(flow, bytes);
        }
        let list = &mut at_mut(&mut self.table, fat as usize).list;
        let held = list.count;
        let batch = held.min(self.pool.count - 1).min(self.drop_batch);
        for _ in 0..batch {
            self.pool.drop_head(list, Cause::FatFlow, signals);
        }
        self.winners.renew(fat, list.bytes);
        if fat == flow && held <= batch {
            Put::Lost(Cause::FatFlow)
        } else {
            Put::Kept
        }
    }

    /// The length of the packet that is given, 0 for none.
    #[inline(never)]
    pub fn take_into(&mut self, now: u64, signals: &mut Signals, out: &mut Packet) -> u16 {
        loop {
            let is_fresh = self.fresh.count > 0;
            let ends = if is_fresh {
                &mut self.fresh
            } else if self.stale.count > 0 {
                &mut self.stale
            } else {
                return 0;
            };
            let index = ends.head;
            let flow = at_mut(&mut self.table, index.into());
            let is_spent = flow.credits <= 0;
            if !is_spent && flow.list.count > 0 {
                return self.send(index, now, signals, out);
            }
            ends.head = flow.list.next_flow;
            ends.count -= 1;
            if is_spent {
                flow.credits += i64::from(self.quantum);
            } else {
                flow.codel.rest();
            }
            if is_fresh || is_spent {
                self.stale.append(&mut self.table, index, Listed::Stale);
            } else {
                flow.list.listed = Listed::Nowhere;
            }
        }
    }

    #[inline(always)]
    fn send(&mut self, index: u16, now: u64, signals: &mut Signals, out: &mut Packet) -> u16 {
        let Flow { list, credits, codel } = at_mut(&mut self.table, index.into());
        let mut queue = FlowQueue {
            pool: &mut self.pool,
            list,
        };
        let len = codel.take_into(&self.law, &mut queue, now, signals, out);
        *credits -= i64::from(len);
        self.winners.renew(index.into(), list.bytes);
        len
    }
}
