use crate::raw::sys;
use core::fmt;

/// The kind of a qdisc, with all its settings.
#[derive(Clone, Copy, Debug, PartialEq, Eq)]
#[non_exhaustive]
pub enum Qdisc {
    /// A queue whose limit counts packets.
    Pfifo {
        /// The most packets that are queued.
        limit: u64,
    },
    /// A queue whose limit counts bytes.
    Bfifo {
        /// The most bytes that are queued.
        limit: u64,
    },
    /// Bands, of which the first that has a packet is served.
    Prio {
        /// How many bands there are.
        bands: u8,
        /// The band of each priority, where 0 is the first band.
        priomap: [u8; 16],
    },
    /// A token bucket, which limits the rate.
    Tbf {
        /// The rate, in bits a second.
        rate: u64,
        /// The size of the bucket, in bytes.
        burst: u32,
        /// The most bytes in the queue with which it was made.
        limit: u64,
    },
    /// Classes that take turns by their quanta.
    Drr,
    /// Flows that take turns, each with CoDel.
    FqCodel(FqCodel),
}

/// The settings of an fq_codel. Times are in nanoseconds.
#[derive(Clone, Copy, Debug, PartialEq, Eq)]
#[non_exhaustive]
pub struct FqCodel {
    /// The most packets of all flows together.
    pub limit: u64,
    /// The number of flows.
    pub flows: u32,
    /// The bytes that a flow may send in a round.
    pub quantum: u32,
    /// CoDel's target.
    pub target: u64,
    /// CoDel's interval.
    pub interval: u64,
    /// Whether CoDel marks packets whose transport takes part in ECN, instead of dropping them.
    pub ecn: bool,
    /// How many packets the flow with the most bytes loses at once when the limit is exceeded.
    pub drop_batch: u32,
    /// CoDel drops nothing while this many bytes or fewer are queued.
    pub mtu: u16,
}

/// The name of the kind, as tc has it.
impl fmt::Display for Qdisc {
    fn fmt(&self, f: &mut fmt::Formatter<'_>) -> fmt::Result {
        f.pad(match self {
            Qdisc::Pfifo { .. } => "pfifo",
            Qdisc::Bfifo { .. } => "bfifo",
            Qdisc::Prio { .. } => "prio",
            Qdisc::Tbf { .. } => "tbf",
            Qdisc::Drr => "drr",
            Qdisc::FqCodel(_) => "fq_codel",
        })
    }
}

impl Qdisc {
    pub(crate) fn of(view: &sys::NodeView) -> Qdisc {
        let limit = view.limit;
        match view.kind {
            sys::QTREE_PFIFO => Qdisc::Pfifo { limit },
            sys::QTREE_BFIFO => Qdisc::Bfifo { limit },
            sys::QTREE_PRIO => Qdisc::Prio {
                bands: view.bands,
                priomap: view.priomap,
            },
            sys::QTREE_TBF => Qdisc::Tbf {
                rate: view.rate,
                burst: view.burst,
                limit,
            },
            sys::QTREE_DRR => Qdisc::Drr,
            sys::QTREE_FQ_CODEL => Qdisc::FqCodel(FqCodel {
                limit,
                flows: view.flows,
                quantum: view.quantum,
                target: view.target,
                interval: view.interval,
                ecn: view.ecn != 0,
                drop_batch: view.drop_batch,
                mtu: view.mtu,
            }),
            kind => unreachable!("a qdisc of kind {kind}"),
        }
    }
}
