use crate::packet::Packet;
use crate::packet_error::PacketError;
use crate::raw::{hash, sys};
use core::net::IpAddr;

/// Builds a [`Packet`] field by field. [`Packet::builder`] begins one. A field that is not set is
/// 0.
///
/// ```
/// let packet = qtree::Packet::builder(1500)
///     .buf(7)
///     .addresses([10, 0, 0, 1].into(), [10, 0, 0, 2].into())
///     .proto(17)
///     .ports(4096, 5001)
///     .prio(3)
///     .build()?;
/// assert_eq!(packet.len(), 1500);
/// # Ok::<(), qtree::PacketError>(())
/// ```
#[derive(Clone, Copy)]
#[must_use = "`build` makes the packet"]
pub struct PacketBuilder {
    packet: sys::Packet,
    seed: u32,
    hash: Option<u32>,
}

impl PacketBuilder {
    pub(crate) fn new(len: u16) -> PacketBuilder {
        let packet = sys::Packet {
            len,
            ..sys::Packet::default()
        };
        PacketBuilder {
            packet,
            seed: 0,
            hash: None,
        }
    }

    /// Sets the program's own number for the packet's bytes, which comes back with the packet.
    pub fn buf(mut self, buf: u32) -> Self {
        self.packet.buf = buf;
        self
    }

    /// Sets two further numbers that come back with the packet. A [`Port`](crate::Port) writes its
    /// own index and its own count in their place.
    pub fn number(mut self, port: u32, number: u64) -> Self {
        self.packet.port = port;
        self.packet.number = number;
        self
    }

    /// Sets the addresses of the source and the destination. If one of them is an IPv4 address and
    /// the other an IPv6 address, the IPv4 address is written as an IPv6 address (RFC 4291).
    pub fn addresses(mut self, src: IpAddr, dst: IpAddr) -> Self {
        if let (IpAddr::V4(src), IpAddr::V4(dst)) = (src, dst) {
            self.packet.family = 4;
            (self.packet.src_high, self.packet.src_low) = (0, u64::from(u32::from(src)));
            (self.packet.dst_high, self.packet.dst_low) = (0, u64::from(u32::from(dst)));
        } else {
            self.packet.family = 6;
            (self.packet.src_high, self.packet.src_low) = halves(src);
            (self.packet.dst_high, self.packet.dst_low) = halves(dst);
        }
        self
    }

    /// Sets the protocol above IP, such as 6 for TCP or 17 for UDP.
    pub fn proto(mut self, proto: u8) -> Self {
        self.packet.proto = proto;
        self
    }

    /// Sets the ports of the source and the destination.
    pub fn ports(mut self, src: u16, dst: u16) -> Self {
        (self.packet.sport, self.packet.dport) = (src, dst);
        self
    }

    /// Sets the priority, 0 to 15, as `skb->priority`.
    pub fn prio(mut self, prio: u8) -> Self {
        self.packet.prio = prio;
        self
    }

    /// Sets the ECN codepoint, 0 to 3.
    pub fn ecn(mut self, ecn: u8) -> Self {
        self.packet.ecn = ecn;
        self
    }

    /// Sets the seed with which the hash is computed if no hash is set. By default it is 0, so that
    /// tests have the same flows each time. Everybody knows that seed: on a network that you do not
    /// control, draw one at random when the program starts, so that nobody outside can choose ports
    /// that share a flow.
    pub fn seed(mut self, seed: u32) -> Self {
        self.seed = seed;
        self
    }

    /// Sets the hash, by which an fq_codel chooses the packet's flow.
    pub fn hash(mut self, hash: u32) -> Self {
        self.hash = Some(hash);
        self
    }

    /// Makes the packet. If no hash was set, it is computed from the addresses, the ports and the
    /// protocol.
    ///
    /// ```
    /// # use qtree::{Packet, PacketError};
    /// assert_eq!(Packet::builder(0).build(), Err(PacketError::Len));
    /// assert_eq!(Packet::builder(1500).prio(16).build(), Err(PacketError::Prio));
    /// assert_eq!(Packet::builder(1500).ecn(4).build(), Err(PacketError::Ecn));
    /// ```
    ///
    /// # Errors
    ///
    /// `Len` for a length of 0, `Prio` for a priority above 15, and `Ecn` for an ECN codepoint
    /// above 3.
    pub fn build(mut self) -> Result<Packet, PacketError> {
        if self.packet.len == 0 {
            return Err(PacketError::Len);
        }
        if self.packet.prio > 15 {
            return Err(PacketError::Prio);
        }
        if self.packet.ecn > 3 {
            return Err(PacketError::Ecn);
        }
        match self.hash {
            Some(hash) => self.packet.hash = hash,
            None => hash(self.seed, &mut self.packet),
        }
        Ok(Packet(self.packet))
    }
}

fn halves(address: IpAddr) -> (u64, u64) {
    let bits = match address {
        IpAddr::V4(address) => address.to_ipv6_mapped().to_bits(),
        IpAddr::V6(address) => address.to_bits(),
    };
    ((bits >> 64) as u64, bits as u64)
}

impl core::fmt::Debug for PacketBuilder {
    fn fmt(&self, f: &mut core::fmt::Formatter<'_>) -> core::fmt::Result {
        f.debug_tuple("PacketBuilder")
            .field(&Packet(self.packet))
            .finish()
    }
}
