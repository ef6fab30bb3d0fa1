//! Nodes of the tree by handles and classes, and how many there are.

use super::plain::device::Device;
use super::plain::line::ClassId;
use super::plain::tree::{Discipline, Node};

/// The places of the nodes on the way down from the root, each among its parent's children.
pub type Way = Vec<usize>;

impl Node {
    pub fn below(&self) -> &[Node] {
        match &self.discipline {
            Discipline::Fifo(_) | Discipline::FqCodel(_) => &[],
            Discipline::Prio { bands, .. } => bands,
            Discipline::Tbf { child, .. } => std::slice::from_ref(child),
            Discipline::Drr { classes, .. } => classes,
        }
    }

    /// The place of a class that the node has.
    pub fn place_of_class(&self, minor: u16) -> Option<usize> {
        self.place_of(minor).filter(|place| *place < self.below().len())
    }

    /// The minor number of the class at a place.
    pub fn minor_at(&self, place: usize) -> u16 {
        match &self.discipline {
            Discipline::Drr { minors, .. } => minors[place],
            _ => place as u16 + 1,
        }
    }

    /// Whether its qdisc is of a kind that has classes.
    pub fn is_classful(&self) -> bool {
        !matches!(self.discipline, Discipline::Fifo(_) | Discipline::FqCodel(_))
    }

    pub fn count(&self) -> usize {
        1 + self.below().iter().map(Node::count).sum::<usize>()
    }

    fn way_to(&self, handle: u16, way: &mut Way) -> bool {
        if self.handle == Some(handle) {
            return true;
        }
        for (place, child) in self.below().iter().enumerate() {
            way.push(place);
            if child.way_to(handle, way) {
                return true;
            }
            way.pop();
        }
        false
    }
}

impl Device {
    pub fn way_to(&self, handle: u16) -> Option<Way> {
        let mut way = Way::new();
        self.root.way_to(handle, &mut way).then_some(way)
    }

    /// The way to the node in a class.
    pub fn way_to_class(&self, class: ClassId) -> Option<Way> {
        let mut way = self.way_to(class.major)?;
        let place = self.node(&way).place_of_class(class.minor)?;
        way.push(place);
        Some(way)
    }

    pub fn node(&self, way: &[usize]) -> &Node {
        way.iter().fold(&self.root, |node, place| &node.below()[*place])
    }

    pub fn node_mut(&mut self, way: &[usize]) -> &mut Node {
        way.iter()
            .fold(&mut self.root, |node, place| &mut node.children()[*place])
    }

    /// The lowest handle from 8001 up that no node has.
    pub fn free_handle(&self) -> u16 {
        let mut handle = 0x8001;
        while self.way_to(handle).is_some() {
            handle += 1;
        }
        handle
    }
}
