use crate::cause::Cause;

/// What happened to a packet that arrived.
#[derive(Clone, Copy, Debug, PartialEq, Eq)]
pub enum Fate {
    /// It is queued.
    Kept,
    /// It is lost, and also waits among the [losses](crate::Device::losses).
    Lost(Cause),
}
