use crate::count::Count;
use crate::offer_error::OfferError;
use crate::packet::Packet;
use crate::raw::{RawPort, sys};
use crate::ring_state::RingState;
use alloc::sync::Arc;

/// A sender's end of a ring, through which it passes packets to a [`Drain`](crate::Drain). A port
/// may move to a thread of its own, which waits neither for another sender nor for a lock. Dropping
/// the port closes it; packets that it has placed can still be taken in.
///
/// ```
/// use qtree::{Drain, OfferError, Packet, Settings};
///
/// let (mut drain, mut ports) = Drain::open(Settings::default(), 1, 2)?;
/// let port = &mut ports[0];
/// let packet = Packet::builder(100).build()?;
/// assert_eq!((port.offer(&packet), port.offer(&packet)), (Ok(()), Ok(())));
/// assert_eq!(port.offer(&packet), Err(OfferError::Full));
/// drain.turn(0, 1, &mut Vec::new())?;
/// assert_eq!(port.offer(&packet), Ok(()));
/// assert_eq!(port.share().bytes, 300);
/// # Ok::<(), qtree::Error>(())
/// ```
///
/// Only one thread at a time uses a port:
///
/// ```compile_fail,E0277
/// fn shared<T: Sync>(_: T) {}
/// let (_drain, mut ports) = qtree::Drain::open(qtree::Settings::default(), 1, 2)?;
/// shared(ports.remove(0));
/// # Ok::<(), qtree::Error>(())
/// ```
#[derive(Debug)]
pub struct Port {
    raw: RawPort,
    index: u32,
    ring: Arc<RingState>,
}

impl Port {
    pub(crate) fn new(raw: RawPort, index: u32, ring: Arc<RingState>) -> Port {
        Port { raw, index, ring }
    }

    /// The index of the port, counted from 0, which its packets have as their [`Packet::port`].
    #[must_use]
    pub fn index(&self) -> u32 {
        self.index
    }

    /// Places a copy of the packet in the ring. The copy has the port's index and, as its number,
    /// how many packets the port has placed, including this one. The call allocates nothing and
    /// waits for no thread.
    ///
    /// # Errors
    ///
    /// `Full` if no place is free; `OutOfRange` if a field of the packet is out of its range;
    /// `Closed` once the drain is gone. On an error nothing has changed.
    pub fn offer(&mut self, packet: &Packet) -> Result<(), OfferError> {
        if self.ring.is_outlet_closed() {
            return Err(OfferError::Closed);
        }
        offered(self.raw.offer(&packet.0))
    }

    /// Places copies of the packets in the ring in order, each as [`Port::offer`] does, up to the
    /// first that is not placed. Returns how many are placed, and why no more are. The drain sees
    /// up to 16 of them at once, so that each costs less than an offer of its own.
    ///
    /// ```
    /// # use qtree::{Drain, OfferError, Packet, Settings};
    /// let (mut drain, mut ports) = Drain::open(Settings::default(), 1, 2)?;
    /// let burst = (0..3).map(|buf| Packet::builder(100).buf(buf).build()).collect::<Result<Vec<Packet>, _>>()?;
    /// assert_eq!(ports[0].offer_many(&burst), (2, Err(OfferError::Full)));
    /// drain.turn(0, 2, &mut Vec::new())?;
    /// assert_eq!(ports[0].offer_many(&burst[2..]), (1, Ok(())));
    /// # Ok::<(), qtree::Error>(())
    /// ```
    ///
    /// # Errors
    ///
    /// Those of [`Port::offer`], for the first packet that is not placed.
    #[must_use = "packets that were not placed are to be offered again"]
    pub fn offer_many(&mut self, packets: &[Packet]) -> (usize, Result<(), OfferError>) {
        if self.ring.is_outlet_closed() {
            return (0, Err(OfferError::Closed));
        }
        let (code, placed) = self.raw.offer_many(packets);
        (placed, offered(code))
    }

    /// Returns how many packets and bytes the port has placed so far.
    #[must_use]
    pub fn share(&self) -> Count {
        Count::of(self.raw.share())
    }
}

fn offered(code: u32) -> Result<(), OfferError> {
    match code {
        sys::QTREE_DONE => Ok(()),
        sys::QTREE_FULL => Err(OfferError::Full),
        _ => Err(OfferError::OutOfRange),
    }
}

impl Drop for Port {
    fn drop(&mut self) {
        let placed = self.share();
        self.ring.close_port(placed);
    }
}
