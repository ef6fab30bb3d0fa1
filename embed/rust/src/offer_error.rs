use core::fmt;

/// Why a port did not place a packet. Nothing has changed then, and the packet may be offered
/// again.
#[derive(Clone, Copy, Debug, PartialEq, Eq)]
#[non_exhaustive]
pub enum OfferError {
    /// No place of the ring is free. Places become free as the drain takes packets in.
    Full,
    /// The packet has a length of 0, a priority above 15 or an ECN codepoint above 3.
    OutOfRange,
    /// The drain was dropped, and the packet would never be taken in.
    Closed,
}

impl fmt::Display for OfferError {
    fn fmt(&self, f: &mut fmt::Formatter<'_>) -> fmt::Result {
        f.write_str(match self {
            OfferError::Full => "the ring is full",
            OfferError::OutOfRange => "a field of the packet is out of its range",
            OfferError::Closed => "the drain is gone",
        })
    }
}

impl core::error::Error for OfferError {}
