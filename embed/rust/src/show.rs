/// Which text [`Device::show`](crate::Device::show) returns.
#[derive(Clone, Copy, Debug, PartialEq, Eq)]
#[non_exhaustive]
pub enum Show {
    /// `tc qdisc show`.
    Qdiscs = 0,
    /// `tc -s qdisc show`: each qdisc with its counters.
    Counters = 1,
    /// `tc class show`.
    Classes = 2,
    /// `tc filter show`.
    Filters = 3,
}
