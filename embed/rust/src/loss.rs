use crate::cause::Cause;
use crate::packet::Packet;

/// A lost packet, and why it is lost.
#[derive(Clone, Copy, Debug, PartialEq, Eq)]
#[non_exhaustive]
pub struct Loss {
    /// The packet, as it arrived.
    pub packet: Packet,
    /// Why it is lost.
    pub cause: Cause,
}
