//! An fq_codel by plain lists, for the comparison in `fq_codel_twins`: a queue and a CoDel for each
//! flow, and each list of flows is looked through at each arrival.
use crate::plain_codel::{Codel, Options, Queue};
use qtree::{Cause, Count, Fate, Packet};
use std::cmp::Reverse;
use std::collections::VecDeque;

/// A listed flow, and the bytes that it may still send.
#[derive(Clone, Copy, Debug)]
struct Entry {
    flow: usize,
    credits: i64,
}

/// The packets of a flow, and what CoDel knows of it.
#[derive(Default)]
struct Flow {
    queue: Queue,
    codel: Codel,
}

/// What an fq_codel is, without its speed.
pub struct PlainFqCodel {
    options: Options,
    flows: Vec<Flow>,
    new_flows: VecDeque<Entry>,
    old_flows: VecDeque<Entry>,
    lost: Vec<(Packet, Cause)>,
}

impl PlainFqCodel {
    pub fn new(options: Options) -> PlainFqCodel {
        PlainFqCodel {
            options,
            flows: (0..options.flows).map(|_| Flow::default()).collect(),
            new_flows: VecDeque::new(),
            old_flows: VecDeque::new(),
            lost: Vec::new(),
        }
    }

    pub fn options(&self) -> Options {
        self.options
    }

    /// A packet comes. A flow that is not listed is listed as new.
    pub fn arrive(&mut self, packet: Packet, now: u64) -> Fate {
        let flow = (packet.hash() % self.options.flows) as usize;
        if self.entries().all(|entry| entry.flow != flow) {
            let credits = self.options.quantum.into();
            self.new_flows.push_back(Entry { flow, credits });
        }
        self.flows[flow].queue.push(packet, now);
        if self.shed(flow) {
            Fate::Lost(Cause::FatFlow)
        } else {
            Fate::Kept
        }
    }

    /// Loses a batch of the fattest flow, where there are more packets than the limit. Whether this
    /// flow has lost all that it had.
    fn shed(&mut self, flow: usize) -> bool {
        let packets = self.queued().packets;
        if packets <= self.options.limit {
            return false;
        }
        let fat = self.fattest();
        let queue = &mut self.flows[fat].queue;
        let batch = u64::from(self.options.drop_batch).min(packets - 1);
        for _ in 0..batch.min(queue.packets()) {
            let lost = queue.pop().expect("a packet of the fattest flow");
            self.lost.push((lost, Cause::FatFlow));
        }
        fat == flow && queue.packets() == 0
    }

    /// The next packet to send, and whether it is marked.
    pub fn poll(&mut self, now: u64) -> Option<(Packet, bool)> {
        loop {
            let is_new = !self.new_flows.is_empty();
            let entry = self.list(is_new).pop_front()?;
            let taken = self.turn(entry, is_new, now);
            if taken.is_some() {
                return taken;
            }
        }
    }

    /// What the flow in front sends: it has to have credits and a packet. It pays for that, and
    /// stays in front.
    fn turn(&mut self, mut entry: Entry, is_new: bool, now: u64) -> Option<(Packet, bool)> {
        if entry.credits <= 0 {
            entry.credits += i64::from(self.options.quantum);
            self.old_flows.push_back(entry);
            return None;
        }
        let taken = self.send(entry.flow, now);
        match &taken {
            Some((packet, _)) => {
                entry.credits -= i64::from(packet.len());
                self.list(is_new).push_front(entry);
            }
            // A flow without a packet becomes old, where it was new, and else is in no list.
            None if is_new => self.old_flows.push_back(entry),
            None => {}
        }
        taken
    }

    fn send(&mut self, flow: usize, now: u64) -> Option<(Packet, bool)> {
        let mut dropped = Vec::new();
        let Flow { queue, codel } = &mut self.flows[flow];
        let taken = codel.poll(queue, &self.options, now, &mut dropped);
        let lost = dropped.into_iter().map(|packet| (packet, Cause::CoDel));
        self.lost.extend(lost);
        taken
    }

    pub fn change(&mut self, options: Options) {
        self.options = options;
    }

    /// Loses all packets, flow by flow, and is as new.
    pub fn purge(&mut self) {
        for flow in &mut self.flows {
            while let Some(packet) = flow.queue.pop() {
                self.lost.push((packet, Cause::Purged));
            }
            flow.codel = Codel::default();
        }
        self.new_flows.clear();
        self.old_flows.clear();
    }

    /// What was lost since the last call, in order.
    pub fn losses(&mut self) -> Vec<(Packet, Cause)> {
        std::mem::take(&mut self.lost)
    }

    /// How many flows are in each list.
    pub fn listed(&self) -> (usize, usize) {
        (self.new_flows.len(), self.old_flows.len())
    }

    /// What all flows have. Only listed ones have any.
    pub fn queued(&self) -> Count {
        let queues = self.entries().map(|entry| &self.flows[entry.flow].queue);
        queues.fold(Count::default(), |sum, queue| Count {
            packets: sum.packets + queue.packets(),
            bytes: sum.bytes + queue.bytes(),
        })
    }

    /// The flow with the most bytes, of equals that with the lower index.
    fn fattest(&self) -> usize {
        let fattest = self
            .entries()
            .map(|entry| (self.flows[entry.flow].queue.bytes(), Reverse(entry.flow)))
            .max();
        fattest.expect("a listed flow").1.0
    }

    fn list(&mut self, is_new: bool) -> &mut VecDeque<Entry> {
        if is_new {
            &mut self.new_flows
        } else {
            &mut self.old_flows
        }
    }

    fn entries(&self) -> impl Iterator<Item = &Entry> {
        self.new_flows.iter().chain(&self.old_flows)
    }
}
