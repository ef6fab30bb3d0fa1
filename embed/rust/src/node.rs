use crate::class::Class;
use crate::place::Place;
use crate::qdisc::Qdisc;
use crate::raw::sys;
use crate::row::Row;
use alloc::vec::Vec;
use core::fmt;

/// A qdisc: its place, its settings, its classes and its counters.
#[derive(Clone, PartialEq, Eq)]
#[non_exhaustive]
pub struct Node {
    /// Its major number; `None` for a leaf that no line added.
    pub handle: Option<u16>,
    /// Where it is: at the root, or in a class of another qdisc.
    pub place: Place,
    /// Its kind and its settings.
    pub qdisc: Qdisc,
    /// Its counters.
    pub row: Row,
    /// How many of its flows are in a list, if it is an fq_codel.
    pub listed: Option<ListedFlows>,
    /// Its classes, in the order of `tc class show`.
    pub classes: Vec<Class>,
}

/// Its kind, its handle and its place as tc writes them, in hexadecimal: `drr 1: root`, or `pfifo
/// 0: parent 1:1f`.
impl fmt::Display for Node {
    fn fmt(&self, f: &mut fmt::Formatter<'_>) -> fmt::Result {
        write!(f, "{} {:x}: ", self.qdisc, self.handle.unwrap_or(0))?;
        match self.place {
            Place::Class(..) => write!(f, "parent {}", self.place),
            place => place.fmt(f),
        }
    }
}

impl fmt::Debug for Node {
    fn fmt(&self, f: &mut fmt::Formatter<'_>) -> fmt::Result {
        f.debug_struct("Node")
            .field("name", &format_args!("{self}"))
            .field("qdisc", &self.qdisc)
            .field("row", &self.row)
            .field("listed", &self.listed)
            .field("classes", &self.classes)
            .finish()
    }
}

/// How many flows of an fq_codel are in each of its lists. The other flows have no packets, and no
/// turn.
#[derive(Clone, Copy, Debug, PartialEq, Eq)]
#[non_exhaustive]
pub struct ListedFlows {
    /// In the list of new flows.
    pub new: u32,
    /// In the list of old flows.
    pub old: u32,
}

impl Node {
    pub(crate) fn of(view: sys::NodeView, classes: Vec<Class>) -> Node {
        Node {
            handle: (view.handle != 0).then_some(view.handle),
            place: match view.place {
                sys::QTREE_ROOT => Place::Root,
                _ => Place::Class(view.parent_major, view.parent_minor),
            },
            qdisc: Qdisc::of(&view),
            row: Row::of(view.row),
            listed: (view.kind == sys::QTREE_FQ_CODEL).then_some(ListedFlows {
                new: view.new_flows,
                old: view.old_flows,
            }),
            classes,
        }
    }
}
