//! The commands that set a device's tree up. Whether a command should be refused is not asked.

use super::device::Device;
use super::fifo::Fifo;
use super::fq_codel::FqCodel;
use super::node::{Discipline, Node};
use crate::plain::active::Active;
use crate::plain::bucket::Bucket;
use crate::plain::fifo::Limit;
use crate::plain::flows::Settings;
use crate::plain::line::{Command, FqCodel as Options, Kind, Place, TbfLimit};

impl Device {
    pub fn command(&mut self, command: &Command) -> Option<()> {
        match *command {
            Command::QdiscAdd { place, handle, kind } => {
                let made = self.made(handle, &kind);
                *self.at(place)? = made;
            }
            Command::ClassAdd { parent, class, quantum } => self.add_class(parent, class.minor, quantum)?,
            Command::FilterAdd {
                parent,
                prio,
                protocol,
                keys,
                class,
            } => {
                let node = find(&mut self.root, parent)?;
                let place = node.place_of(class.minor)?;
                node.filters.add(prio, protocol, &keys, place as u16);
            }
            _ => return None,
        }
        Some(())
    }

    fn at(&mut self, place: Place) -> Option<&mut Node> {
        match place {
            Place::Root => Some(&mut self.root),
            Place::Class(class) => self.class(class.major, class.minor),
        }
    }

    pub fn class(&mut self, major: u16, minor: u16) -> Option<&mut Node> {
        let node = find(&mut self.root, major)?;
        let place = node.place_of(minor)?;
        node.children().get_mut(place)
    }

    fn add_class(&mut self, parent: u16, minor: u16, quantum: Option<u32>) -> Option<()> {
        let leaf = Node::fifo(Limit::Packets(self.txqueuelen.into()));
        let quantum = quantum.unwrap_or(self.mtu.into());
        let Discipline::Drr {
            active,
            minors,
            classes,
        } = &mut find(&mut self.root, parent)?.discipline
        else {
            return None;
        };
        active.add(minors.len() as u16, quantum);
        minors.push(minor);
        classes.push(leaf);
        Some(())
    }

    pub fn made(&self, handle: Option<u16>, kind: &Kind) -> Node {
        let txqueuelen = u64::from(self.txqueuelen);
        let packets = |limit: Option<u32>| Limit::Packets(limit.map_or(txqueuelen, u64::from));
        let discipline = match *kind {
            Kind::Pfifo { limit } => Discipline::Fifo(Fifo::new(packets(limit))),
            Kind::Bfifo { limit } => {
                let bytes = limit.map_or(txqueuelen * u64::from(self.mtu), u64::from);
                Discipline::Fifo(Fifo::new(Limit::Bytes(bytes)))
            }
            Kind::Prio { bands, priomap } => Discipline::Prio {
                priomap,
                bands: (0..bands).map(|_| Node::fifo(packets(None))).collect(),
            },
            Kind::Tbf { rate, burst, limit } => {
                let bytes = match limit {
                    TbfLimit::Bytes(bytes) => bytes.into(),
                    TbfLimit::Latency(ns) => {
                        let brought = u128::from(rate) * u128::from(ns) / 8_000_000_000;
                        brought as u64 + u64::from(burst)
                    }
                };
                Discipline::Tbf {
                    bucket: Bucket::new(rate, burst),
                    burst,
                    limit: bytes,
                    child: Box::new(Node::fifo(Limit::Bytes(bytes))),
                }
            }
            Kind::Drr => Discipline::Drr {
                active: Active::default(),
                minors: Vec::new(),
                classes: Vec::new(),
            },
            Kind::FqCodel(options) => {
                let settings = settings(&options, self.mtu);
                if self.lazy {
                    Discipline::Lazy(Box::new(FqCodel::new(settings)))
                } else {
                    Discipline::FqCodel(Box::new(FqCodel::new(settings)))
                }
            }
        };
        Node::new(handle, discipline)
    }
}

fn settings(options: &Options, mtu: u16) -> Settings {
    Settings {
        limit: options.limit.unwrap_or(10_240),
        flows: options.flows.unwrap_or(1024),
        quantum: options.quantum.unwrap_or(1514),
        target: options.target.unwrap_or(5_000_000),
        interval: options.interval.unwrap_or(100_000_000),
        ecn: options.ecn.unwrap_or(true),
        drop_batch: options.drop_batch.unwrap_or(1),
        mtu,
    }
}

pub fn find(node: &mut Node, handle: u16) -> Option<&mut Node> {
    if node.handle == Some(handle) {
        return Some(node);
    }
    node.children().iter_mut().find_map(|child| find(child, handle))
}

impl Node {
    pub fn children(&mut self) -> &mut [Node] {
        match &mut self.discipline {
            Discipline::Fifo(_) | Discipline::FqCodel(_) | Discipline::Lazy(_) => &mut [],
            Discipline::Prio { bands, .. } => bands,
            Discipline::Tbf { child, .. } => std::slice::from_mut(child),
            Discipline::Drr { classes, .. } => classes,
        }
    }

    /// The place of a class among the node's children.
    pub fn place_of(&self, minor: u16) -> Option<usize> {
        match &self.discipline {
            Discipline::Drr { minors, .. } => minors.iter().position(|other| *other == minor),
            _ => usize::from(minor).checked_sub(1),
        }
    }
}
