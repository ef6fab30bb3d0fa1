use crate::packet::Packet;

/// What a poll returns.
#[derive(Clone, Copy, Debug, PartialEq, Eq)]
pub enum Polled<P = Packet> {
    /// The packet whose turn it is.
    Packet(P),
    /// No packet: none is queued.
    Idle,
    /// No packet: packets are queued, but none may go yet.
    /// [`Device::ready_at`](crate::Device::ready_at) says when to poll again.
    Later,
}
