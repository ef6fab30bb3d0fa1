use crate::raw::sys;
use core::fmt;

/// A class of a prio, a tbf or a drr. Its counters are those of the qdisc in it.
#[derive(Clone, Copy, PartialEq, Eq)]
#[non_exhaustive]
pub struct Class {
    /// The handle of its qdisc.
    pub major: u16,
    /// Its number among the classes of that qdisc.
    pub minor: u16,
    /// What a drr keeps of the class; `None` if its qdisc is not a drr.
    pub turn: Option<DrrTurn>,
}

/// What a drr keeps of a class. Both numbers are in bytes.
#[derive(Clone, Copy, Debug, PartialEq, Eq)]
#[non_exhaustive]
pub struct DrrTurn {
    /// What the class may send in each of its turns.
    pub quantum: u32,
    /// What the class may send before the next quantum; `None` if the class is not active, which is
    /// when no packet waits there.
    pub deficit: Option<u64>,
}

/// The name of the class as tc writes it, in hexadecimal, such as `1:1f`.
impl fmt::Display for Class {
    fn fmt(&self, f: &mut fmt::Formatter<'_>) -> fmt::Result {
        write!(f, "{:x}:{:x}", self.major, self.minor)
    }
}

impl fmt::Debug for Class {
    fn fmt(&self, f: &mut fmt::Formatter<'_>) -> fmt::Result {
        f.debug_struct("Class")
            .field("name", &format_args!("{self}"))
            .field("turn", &self.turn)
            .finish()
    }
}

impl Class {
    pub(crate) fn of(view: sys::ClassView) -> Class {
        Class {
            major: view.major,
            minor: view.minor,
            turn: (view.kind == sys::QTREE_DRR).then_some(DrrTurn {
                quantum: view.quantum,
                deficit: (view.active != 0).then_some(view.deficit),
            }),
        }
    }
}
