use crate::packet::Packet;
use alloc::string::String;

/// An event that a device recorded, or noted among the last events.
#[derive(Clone, Debug, PartialEq, Eq)]
#[non_exhaustive]
pub struct Event {
    /// The time at which it counted, in nanoseconds.
    pub moment: u64,
    /// What it was.
    pub kind: EventKind,
}

/// What an event was.
#[derive(Clone, Debug, PartialEq, Eq)]
pub enum EventKind {
    /// A packet arrived.
    Arrived(Packet),
    /// The device was polled.
    Polled,
    /// A command changed the tree. This is its line of tc, for a device named eth0.
    Commanded(String),
}
