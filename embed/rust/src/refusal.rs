use core::fmt;

/// Why a command is refused. Nothing has changed then.
#[derive(Clone, Copy, Debug, PartialEq, Eq)]
#[non_exhaustive]
pub enum Refusal {
    /// No qdisc has the parent's handle.
    NoParent = 10,
    /// A qdisc, or the class, is there already.
    Exists = 11,
    /// There is no such qdisc.
    NoQdisc = 12,
    /// Another qdisc has the handle.
    HandleTaken = 13,
    /// The qdisc has no classes, or takes no filters.
    NotClassful = 14,
    /// The qdisc lacks the class.
    NoClass = 15,
    /// A filter leads to the class.
    Busy = 16,
    /// The qdisc is of another kind, or this setting of it cannot be changed.
    CannotChange = 17,
    /// The tree would have more than eight levels.
    TooDeep = 18,
    /// There would be more than 256 qdiscs, or more than 256 filters at one qdisc.
    TooMany = 19,
    /// The burst would be below both the present one and the mtu.
    SmallBurst = 20,
    /// No filter of the qdisc has the prio.
    NoFilter = 21,
}

impl Refusal {
    pub(crate) fn of(code: u32) -> Option<Refusal> {
        Some(match code {
            10 => Refusal::NoParent,
            11 => Refusal::Exists,
            12 => Refusal::NoQdisc,
            13 => Refusal::HandleTaken,
            14 => Refusal::NotClassful,
            15 => Refusal::NoClass,
            16 => Refusal::Busy,
            17 => Refusal::CannotChange,
            18 => Refusal::TooDeep,
            19 => Refusal::TooMany,
            20 => Refusal::SmallBurst,
            21 => Refusal::NoFilter,
            _ => return None,
        })
    }
}

impl fmt::Display for Refusal {
    fn fmt(&self, f: &mut fmt::Formatter<'_>) -> fmt::Result {
        f.write_str(match self {
            Refusal::NoParent => "no qdisc has the major number of the parent",
            Refusal::Exists => "a qdisc, or the class, is there already",
            Refusal::NoQdisc => "no qdisc that was added has this place and this handle",
            Refusal::HandleTaken => "another qdisc has the handle",
            Refusal::NotClassful => "the parent has no classes, or takes no filters",
            Refusal::NoClass => "there is no such class",
            Refusal::Busy => "a filter leads to the class",
            Refusal::CannotChange => {
                "the qdisc is of another kind, or the setting cannot be changed"
            }
            Refusal::TooDeep => "a qdisc would be deeper than 8",
            Refusal::TooMany => "there would be more than 256 qdiscs, or filters of one qdisc",
            Refusal::SmallBurst => "the burst is below the mtu and below the present burst",
            Refusal::NoFilter => "no filter of the qdisc has this prio",
        })
    }
}
