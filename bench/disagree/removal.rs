//! What is lost with a node that is removed, and what that changes above it.

use super::find::Way;
use super::plain::active::Active;
use super::plain::codel::Queue;
use super::plain::device::Device;
use super::plain::fifo::{Fifo, Limit};
use super::plain::filter::Filters;
use super::plain::flows::FqCodel;
use super::plain::packet::{Cause, Packet};
use super::plain::signals::Signals;
use super::plain::tree::{Discipline, Node};

impl Device {
    /// Puts a node in the place of another, whose packets are lost.
    pub fn replace(&mut self, way: &Way, node: Node) {
        let mut old = std::mem::replace(self.node_mut(way), node);
        self.purge(&mut old, way);
    }

    /// Loses what a node has that was taken from this place.
    pub fn purge(&mut self, node: &mut Node, way: &[usize]) {
        node.purge(&mut self.signals);
        if !self.signals.any {
            return;
        }
        let sums = self.signals.sums;
        self.signals.clean();
        self.top.book(&sums);
        let mut above = &mut self.root;
        for place in way {
            above.row.book(&sums);
            above = &mut above.children()[*place];
        }
        for depth in 0..way.len() {
            self.node_mut(&way[..depth]).let_sleep(way[depth]);
        }
    }

    /// An implicit leaf for the place at the end of this way.
    pub fn implicit(&self, way: &[usize]) -> Node {
        let above = way.split_last().map(|(_, above)| self.node(above));
        let limit = match above.map(|node| &node.discipline) {
            Some(Discipline::Tbf { limit, .. }) => Limit::Bytes(*limit),
            _ => Limit::Packets(self.txqueuelen.into()),
        };
        Node::fifo(limit)
    }
}

impl Node {
    fn purge(&mut self, signals: &mut Signals) {
        if self.holds {
            self.holds = false;
            signals.drop(&self.held, Cause::Purged);
        }
        match &mut self.discipline {
            Discipline::Fifo(fifo) => fifo.purge(signals),
            Discipline::FqCodel(queue) => queue.purge(signals),
            _ => {
                for child in self.children() {
                    child.purge(signals);
                }
            }
        }
    }

    /// A class of a drr with nothing queued leaves the active list.
    fn let_sleep(&mut self, place: usize) {
        if let Discipline::Drr { active, classes, .. } = &mut self.discipline
            && classes.get(place).is_none_or(|class| class.row.queued() == 0)
        {
            active.sleep(place as u16);
        }
    }
}

impl Fifo {
    fn purge(&mut self, signals: &mut Signals) {
        let mut out = Packet::NONE;
        while Queue::take_into(self, &mut out) != 0 {
            signals.drop(&out, Cause::Purged);
        }
    }
}

impl FqCodel {
    fn purge(&mut self, signals: &mut Signals) {
        for flow in &mut self.table {
            while flow.list.count > 0 {
                self.pool.drop_head(&mut flow.list, Cause::Purged, signals);
            }
        }
    }
}

impl Active {
    /// Removes an inactive class; those after it move up.
    pub fn remove(&mut self, gone: usize) {
        let mut order = Vec::new();
        let mut class = usize::from(self.front);
        for _ in 0..self.count {
            order.push(if class > gone { class - 1 } else { class });
            class = self.classes[class].next.into();
        }
        self.classes.remove(gone);
        self.front = order.first().map_or(0, |class| *class as u16);
        for (index, class) in order.iter().enumerate() {
            let next = order[(index + 1) % order.len()];
            self.classes[*class].next = next as u16;
            self.classes[next].before = *class as u16;
        }
    }
}

impl Filters {
    /// Whether one of them names the class at a place from this one on.
    pub fn name_from(&self, place: usize) -> bool {
        self.rest.iter().any(|filter| usize::from(filter.place) >= place)
    }

    pub fn name(&self, place: usize) -> bool {
        self.rest.iter().any(|filter| usize::from(filter.place) == place)
    }

    /// Classes behind this place have moved up.
    pub fn move_up(&mut self, gone: usize) {
        for filter in &mut self.rest {
            if usize::from(filter.place) > gone {
                filter.place -= 1;
            }
        }
    }

    /// Takes out those of a prio.
    pub fn remove(&mut self, prio: u16) {
        for index in (0..self.rest.len()).rev() {
            if self.rest[index].prio == prio {
                self.rest.remove(index);
                self.words.remove(index);
            }
        }
    }
}
