use core::fmt;

/// Which field of a packet is out of its range. No device and no port takes such a packet.
#[derive(Clone, Copy, Debug, PartialEq, Eq)]
#[non_exhaustive]
pub enum PacketError {
    /// The length is 0.
    Len,
    /// The priority is above 15.
    Prio,
    /// The ECN codepoint is above 3.
    Ecn,
}

impl fmt::Display for PacketError {
    fn fmt(&self, f: &mut fmt::Formatter<'_>) -> fmt::Result {
        f.write_str(match self {
            PacketError::Len => "the length of the packet is 0, and a packet has 1 byte or more",
            PacketError::Prio => "the priority of the packet is above 15",
            PacketError::Ecn => "the ECN codepoint of the packet is above 3",
        })
    }
}

impl core::error::Error for PacketError {}
