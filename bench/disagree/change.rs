//! New settings for a qdisc or a class that is there.

use super::find::Way;
use super::plain::device::Device;
use super::plain::fifo::{Fifo, Limit};
use super::plain::flows::FqCodel;
use super::plain::line::{FqCodel as Options, Kind};
use super::plain::tree::{Discipline, Node};

impl Device {
    /// Changes a qdisc of this kind. Settings that are complete, as of an add, are those of a node made by it.
    pub fn change(&mut self, way: &Way, kind: &Kind, now: u64) {
        if let Kind::Prio { bands, .. } = kind {
            self.remove_bands(way, (*bands).into());
        }
        let txqueuelen = self.txqueuelen.into();
        let made = match kind {
            Kind::Prio { .. } | Kind::Tbf { .. } => Some(self.made(None, kind).discipline),
            _ => None,
        };
        match (&mut self.node_mut(way).discipline, kind, made) {
            (Discipline::Fifo(fifo), Kind::Pfifo { limit } | Kind::Bfifo { limit }, _) => fifo.change(*limit),
            (Discipline::FqCodel(queue), Kind::FqCodel(options), _) => queue.change(options),
            (Discipline::Prio { priomap: old, bands }, Kind::Prio { bands: count, priomap }, _) => {
                *old = *priomap;
                bands.resize_with((*count).into(), || Node::fifo(Limit::Packets(txqueuelen)));
            }
            (
                Discipline::Tbf {
                    bucket,
                    burst,
                    limit,
                    child,
                },
                Kind::Tbf {
                    rate, burst: new_burst, ..
                },
                Some(Discipline::Tbf { limit: new_limit, .. }),
            ) => {
                bucket.change(now, *rate, *new_burst);
                *burst = *new_burst;
                *limit = new_limit;
                if let (None, Discipline::Fifo(leaf)) = (child.handle, &mut child.discipline) {
                    leaf.limit = Limit::Bytes(new_limit);
                }
            }
            _ => {}
        }
    }

    /// Loses the bands from this one on, with all in them, the lowest first.
    fn remove_bands(&mut self, way: &Way, from: usize) {
        for place in from..self.node(way).below().len() {
            let mut band = way.clone();
            band.push(place);
            let leaf = self.implicit(&band);
            self.replace(&band, leaf);
        }
    }

    pub fn change_class(&mut self, way: &Way, quantum: Option<u32>) {
        let mtu = u64::from(self.mtu);
        let (Some(quantum), Some((&place, above))) = (quantum, way.split_last()) else {
            return;
        };
        if let Discipline::Drr { active, .. } = &mut self.node_mut(above).discipline {
            let class = &mut active.classes[place];
            class.quantum = quantum;
            class.deficit = class.deficit.min(u64::from(quantum) + mtu - 1);
        }
    }
}

impl Fifo {
    fn change(&mut self, limit: Option<u32>) {
        if let Some(limit) = limit {
            self.limit = match self.limit {
                Limit::Packets(_) => Limit::Packets(limit.into()),
                Limit::Bytes(_) => Limit::Bytes(limit.into()),
            };
        }
    }
}

impl FqCodel {
    fn change(&mut self, options: &Options) {
        self.limit = options.limit.unwrap_or(self.limit);
        self.quantum = options.quantum.unwrap_or(self.quantum);
        self.drop_batch = options.drop_batch.unwrap_or(self.drop_batch);
        self.law.target = options.target.unwrap_or(self.law.target);
        self.law.interval = options.interval.unwrap_or(self.law.interval);
        self.law.ecn = options.ecn.unwrap_or(self.law.ecn);
    }
}
