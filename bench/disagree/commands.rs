//! Commands, each of which is refused for the first reason that holds, in the order of docs/LANGUAGE.md.

use super::find::Way;
use super::plain::device::Device;
use super::plain::line::{ClassId, Command, Kind, Place};
use super::plain::tree::{Discipline, Node};

#[derive(Clone, Copy, PartialEq, Eq)]
pub enum Refusal {
    NoParent = 10,
    Exists = 11,
    NoQdisc = 12,
    HandleTaken = 13,
    NotClassful = 14,
    NoClass = 15,
    Busy = 16,
    CannotChange = 17,
    TooDeep = 18,
    TooMany = 19,
    SmallBurst = 20,
    NoFilter = 21,
}

impl Refusal {
    pub fn name(self) -> &'static str {
        match self {
            Refusal::NoParent => "NoParent",
            Refusal::Exists => "Exists",
            Refusal::NoQdisc => "NoQdisc",
            Refusal::HandleTaken => "HandleTaken",
            Refusal::NotClassful => "NotClassful",
            Refusal::NoClass => "NoClass",
            Refusal::Busy => "Busy",
            Refusal::CannotChange => "CannotChange",
            Refusal::TooDeep => "TooDeep",
            Refusal::TooMany => "TooMany",
            Refusal::SmallBurst => "SmallBurst",
            Refusal::NoFilter => "NoFilter",
        }
    }
}

pub type Done = Result<(), Refusal>;

const DEEPEST: usize = 8;
const MOST_NODES: usize = 256;
const MOST_FILTERS: usize = 256;

fn refuse_if(holds: bool, refusal: Refusal) -> Done {
    if holds { Err(refusal) } else { Ok(()) }
}

impl Device {
    /// A command that is done moves the clock; a refused one changes nothing.
    pub fn perform(&mut self, command: &Command, at: u64) -> Done {
        let now = self.clock.max(at);
        match *command {
            Command::QdiscAdd { place, handle, kind } => self.add_qdisc(place, handle, &kind)?,
            Command::QdiscChange { place, handle, kind } => {
                let way = self.named(place, handle)?;
                self.may_change(&way, &kind)?;
                self.change(&way, &kind, now);
            }
            Command::QdiscDel { place, handle } => {
                let way = self.named(place, handle)?;
                let leaf = self.implicit(&way);
                self.replace(&way, leaf);
            }
            Command::ClassAdd { parent, class, .. } => {
                self.may_add_class(parent, class)?;
                self.command(command).ok_or(Refusal::NoQdisc)?;
            }
            Command::ClassChange { parent, class, quantum } => {
                let way = self.drr_class(parent, class)?;
                self.change_class(&way, quantum);
            }
            Command::ClassDel { parent, class } => {
                let way = self.drr_class(parent, class)?;
                self.del_class(&way)?;
            }
            Command::FilterAdd { parent, class, .. } => {
                self.may_add_filter(parent, class)?;
                self.command(command).ok_or(Refusal::NoQdisc)?;
            }
            Command::FilterDel { parent, prio } => self.del_filters(parent, prio)?,
        }
        self.clock = now;
        Ok(())
    }

    fn add_qdisc(&mut self, place: Place, handle: Option<u16>, kind: &Kind) -> Done {
        let way = match place {
            Place::Root => Way::new(),
            Place::Class(class) => {
                let parent = self.way_to(class.major).ok_or(Refusal::NoParent)?;
                refuse_if(!self.node(&parent).is_classful(), Refusal::NotClassful)?;
                self.way_to_class(class).ok_or(Refusal::NoClass)?
            }
        };
        refuse_if(self.node(&way).handle.is_some(), Refusal::Exists)?;
        if let Some(handle) = handle {
            refuse_if(self.way_to(handle).is_some(), Refusal::HandleTaken)?;
        }
        let leaves = match kind {
            Kind::Prio { bands, .. } => (*bands).into(),
            Kind::Tbf { .. } => 1,
            _ => 0,
        };
        let depth = way.len() + 1 + usize::from(leaves > 0);
        refuse_if(depth > DEEPEST, Refusal::TooDeep)?;
        refuse_if(self.root.count() + leaves > MOST_NODES, Refusal::TooMany)?;
        let handle = handle.unwrap_or_else(|| self.free_handle());
        let made = self.made(Some(handle), kind);
        self.replace(&way, made);
        Ok(())
    }

    /// The explicit qdisc that is in the place and has the handle, if these are given.
    fn named(&self, place: Option<Place>, handle: Option<u16>) -> Result<Way, Refusal> {
        let by_handle = handle.map(|handle| self.way_to(handle).ok_or(Refusal::NoQdisc));
        let by_handle = by_handle.transpose()?;
        let by_place = match place {
            None => None,
            Some(Place::Root) => Some(Way::new()),
            Some(Place::Class(class)) => Some(self.way_to_class(class).ok_or(Refusal::NoQdisc)?),
        };
        let way = match (by_place, by_handle) {
            (Some(one), Some(other)) if one != other => return Err(Refusal::NoQdisc),
            (Some(way), _) | (None, Some(way)) => way,
            (None, None) => return Err(Refusal::NoQdisc),
        };
        refuse_if(self.node(&way).handle.is_none(), Refusal::NoQdisc)?;
        Ok(way)
    }

    fn may_change(&self, way: &Way, kind: &Kind) -> Done {
        let node = self.node(way);
        refuse_if(!node.is_of(kind), Refusal::CannotChange)?;
        match (&node.discipline, kind) {
            (Discipline::FqCodel(queue), Kind::FqCodel(options)) => {
                let is_other = options.flows.is_some_and(|flows| flows != queue.flows);
                refuse_if(is_other, Refusal::CannotChange)
            }
            (Discipline::Prio { bands: old, .. }, Kind::Prio { bands, .. }) => {
                let bands = usize::from(*bands);
                refuse_if(node.filters.name_from(bands), Refusal::Busy)?;
                let nodes = self.root.count() + bands.saturating_sub(old.len());
                refuse_if(nodes > MOST_NODES, Refusal::TooMany)
            }
            (Discipline::Tbf { burst: old, .. }, Kind::Tbf { burst, .. }) => {
                let is_small = burst < old && *burst < u32::from(self.mtu);
                refuse_if(is_small, Refusal::SmallBurst)
            }
            _ => Ok(()),
        }
    }

    /// The way to a drr that a class line names.
    fn drr(&self, parent: Option<u16>, class: ClassId) -> Result<Way, Refusal> {
        let is_other = parent.is_some_and(|parent| parent != class.major);
        refuse_if(is_other, Refusal::NoParent)?;
        let way = self.way_to(class.major).ok_or(Refusal::NoQdisc)?;
        let node = self.node(&way);
        refuse_if(!node.is_classful(), Refusal::NotClassful)?;
        let is_drr = matches!(node.discipline, Discipline::Drr { .. });
        refuse_if(!is_drr, Refusal::CannotChange)?;
        Ok(way)
    }

    fn drr_class(&self, parent: Option<u16>, class: ClassId) -> Result<Way, Refusal> {
        self.drr(parent, class)?;
        self.way_to_class(class).ok_or(Refusal::NoClass)
    }

    fn may_add_class(&self, parent: u16, class: ClassId) -> Done {
        let way = self.drr(Some(parent), class)?;
        let has_it = self.node(&way).place_of_class(class.minor).is_some();
        refuse_if(has_it, Refusal::Exists)?;
        refuse_if(way.len() + 2 > DEEPEST, Refusal::TooDeep)?;
        refuse_if(self.root.count() + 1 > MOST_NODES, Refusal::TooMany)
    }

    /// The way to a node that takes filters.
    fn filtered(&self, handle: u16) -> Result<Way, Refusal> {
        let way = self.way_to(handle).ok_or(Refusal::NoQdisc)?;
        let takes_filters = matches!(
            self.node(&way).discipline,
            Discipline::Prio { .. } | Discipline::Drr { .. }
        );
        refuse_if(!takes_filters, Refusal::NotClassful)?;
        Ok(way)
    }

    fn may_add_filter(&self, parent: u16, class: ClassId) -> Done {
        let way = self.filtered(parent)?;
        let node = self.node(&way);
        let has_it = class.major == parent && node.place_of_class(class.minor).is_some();
        refuse_if(!has_it, Refusal::NoClass)?;
        refuse_if(node.filters.rest.len() + 1 > MOST_FILTERS, Refusal::TooMany)
    }

    fn del_filters(&mut self, parent: u16, prio: u16) -> Done {
        let way = self.filtered(parent)?;
        let filters = &mut self.node_mut(&way).filters;
        let has_one = filters.rest.iter().any(|filter| filter.prio == prio);
        refuse_if(!has_one, Refusal::NoFilter)?;
        filters.remove(prio);
        Ok(())
    }

    fn del_class(&mut self, way: &Way) -> Done {
        let Some((&place, above)) = way.split_last() else {
            return Err(Refusal::NoClass);
        };
        refuse_if(self.node(above).filters.name(place), Refusal::Busy)?;
        let leaf = self.implicit(way);
        self.replace(way, leaf);
        let node = self.node_mut(above);
        if let Discipline::Drr {
            active,
            minors,
            classes,
        } = &mut node.discipline
        {
            active.remove(place);
            minors.remove(place);
            classes.remove(place);
        }
        node.filters.move_up(place);
        Ok(())
    }
}

impl Node {
    fn is_of(&self, kind: &Kind) -> bool {
        use super::plain::fifo::Limit;
        match (&self.discipline, kind) {
            (Discipline::Fifo(fifo), Kind::Pfifo { .. }) => matches!(fifo.limit, Limit::Packets(_)),
            (Discipline::Fifo(fifo), Kind::Bfifo { .. }) => matches!(fifo.limit, Limit::Bytes(_)),
            (discipline, kind) => matches!(
                (discipline, kind),
                (Discipline::Prio { .. }, Kind::Prio { .. })
                    | (Discipline::Tbf { .. }, Kind::Tbf { .. })
                    | (Discipline::Drr { .. }, Kind::Drr)
                    | (Discipline::FqCodel(_), Kind::FqCodel(_))
            ),
        }
    }
}
