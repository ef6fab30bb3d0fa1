use crate::builder::PacketBuilder;
use crate::raw::{read_hashed, read_head, sys};
use core::fmt;
use core::net::{IpAddr, Ipv4Addr, Ipv6Addr};

/// The descriptor of a packet. The packet's bytes stay with the program, which finds them again by
/// [`Packet::buf`].
#[derive(Clone, Copy)]
#[repr(transparent)]
pub struct Packet(pub(crate) sys::Packet);

impl Packet {
    /// Begins a packet of this length in bytes. The methods of the builder set its other fields by
    /// name.
    pub fn builder(len: u16) -> PacketBuilder {
        PacketBuilder::new(len)
    }

    /// Returns a packet of `len` bytes whose other fields are read from its first bytes, which
    /// begin with its IP header. `buf` is the program's own number, and `seed` is that of the hash.
    ///
    /// An arrival of a packet with a length of 0 is an error.
    ///
    /// ```
    /// let udp = [0x45, 0, 0, 28, 0, 0, 0, 0, 64, 17, 0, 0, 10, 0, 0, 1, 10, 0, 0, 2, 0x10, 0, 0x13, 0x89, 0, 8, 0, 0];
    /// let packet = qtree::Packet::read(&udp, 28, 7, 0);
    /// assert_eq!((packet.proto(), packet.ports(), packet.buf()), (17, (4096, 5001), 7));
    /// assert_eq!(packet.src(), Some([10, 0, 0, 1].into()));
    /// ```
    #[must_use]
    pub fn read(bytes: &[u8], len: u16, buf: u32, seed: u32) -> Packet {
        let mut packet = sys::Packet {
            len,
            buf,
            ..sys::Packet::default()
        };
        read_head(bytes, seed, &mut packet);
        Packet(packet)
    }

    /// Does what [`Packet::read`] does, with a hash that the program has, for example from a
    /// network card: computing the hash takes most of the time of [`Packet::read`]. If no fq_codel
    /// is in the tree, nothing reads a hash, and it may be 0.
    ///
    /// ```
    /// let udp = [0x45, 0, 0, 28, 0, 0, 0, 0, 64, 17, 0, 0, 10, 0, 0, 1, 10, 0, 0, 2, 0x10, 0, 0x13, 0x89, 0, 8, 0, 0];
    /// let packet = qtree::Packet::read_hashed(&udp, 28, 7, 0x1234);
    /// assert_eq!((packet.hash(), packet.ports()), (0x1234, (4096, 5001)));
    /// ```
    #[must_use]
    pub fn read_hashed(bytes: &[u8], len: u16, buf: u32, hash: u32) -> Packet {
        let mut packet = sys::Packet {
            len,
            buf,
            ..sys::Packet::default()
        };
        read_hashed(bytes, hash, &mut packet);
        Packet(packet)
    }

    /// Returns the same packet with other ports, and with the hash that it has. By this a program
    /// that knows the class of a packet names the class: it passes a number that a filter matches
    /// as a port. No byte of the packet changes.
    ///
    /// ```
    /// # use qtree::{Cause, Device, Error, Fate, Packet, Place, Settings};
    /// let mut device = Device::open(Settings::default())?;
    /// device.command("tc qdisc add dev wan root handle 1: drr", 0)?;
    /// device.command("tc class add dev wan parent 1: classid 1:7 drr", 0)?;
    /// device.command("tc filter add dev wan parent 1: prio 1 flower src_port 7 classid 1:7", 0)?;
    /// let packet = Packet::read(&[0x45, 0], 28, 1, 0).with_ports(7, 0);
    /// assert_eq!(device.arrive(&packet, 0)?, Fate::Kept);
    /// assert_eq!(device.stats(Place::Class(1, 7)).map(|row| row.queued.packets), Some(1));
    /// assert_eq!(device.arrive(&packet.with_ports(8, 0), 0)?, Fate::Lost(Cause::NoClass));
    /// # Ok::<(), Error>(())
    /// ```
    #[must_use]
    pub fn with_ports(mut self, src: u16, dst: u16) -> Packet {
        (self.0.sport, self.0.dport) = (src, dst);
        self
    }

    /// The program's own number for the packet's bytes.
    #[must_use]
    pub fn buf(&self) -> u32 {
        self.0.buf
    }

    /// The index of the port that placed it, if it came by a ring; otherwise the program's own
    /// number.
    #[must_use]
    pub fn port(&self) -> u32 {
        self.0.port
    }

    /// Its number among the packets of its port, which a [`Port`](crate::Port) counts from 1, if it
    /// came by a ring; otherwise the program's own number.
    #[must_use]
    pub fn number(&self) -> u64 {
        self.0.number
    }

    /// The hash, by which an fq_codel chooses the packet's flow.
    #[must_use]
    pub fn hash(&self) -> u32 {
        self.0.hash
    }

    /// Its length in bytes.
    #[allow(clippy::len_without_is_empty)]
    #[must_use]
    pub fn len(&self) -> u16 {
        self.0.len
    }

    /// The protocol above IP.
    #[must_use]
    pub fn proto(&self) -> u8 {
        self.0.proto
    }

    /// The ports of the source and the destination, of TCP or UDP.
    #[must_use]
    pub fn ports(&self) -> (u16, u16) {
        (self.0.sport, self.0.dport)
    }

    /// The address of the source; `None` if the packet is not IP.
    #[must_use]
    pub fn src(&self) -> Option<IpAddr> {
        address(self.0.family, self.0.src_high, self.0.src_low)
    }

    /// The address of the destination; `None` if the packet is not IP.
    #[must_use]
    pub fn dst(&self) -> Option<IpAddr> {
        address(self.0.family, self.0.dst_high, self.0.dst_low)
    }

    /// Its priority, 0 to 15.
    #[must_use]
    pub fn prio(&self) -> u8 {
        self.0.prio
    }

    /// Its ECN codepoint, 0 to 3. If a poll returns a packet with 3, the program writes this mark
    /// into the packet's bytes with [`mark_head`](crate::mark_head).
    #[must_use]
    pub fn ecn(&self) -> u8 {
        self.0.ecn
    }
}

fn address(family: u8, high: u64, low: u64) -> Option<IpAddr> {
    match family {
        4 => Some(IpAddr::V4(Ipv4Addr::from(low as u32))),
        6 => Some(IpAddr::V6(Ipv6Addr::from(
            u128::from(high) << 64 | u128::from(low),
        ))),
        _ => None,
    }
}

impl PartialEq for Packet {
    fn eq(&self, other: &Packet) -> bool {
        let fields = |p: &Packet| {
            let c = p.0;
            (
                c.number, c.port, c.buf, c.hash, c.len, c.proto, c.prio, c.ecn,
            )
        };
        fields(self) == fields(other)
            && (self.src(), self.dst(), self.ports()) == (other.src(), other.dst(), other.ports())
    }
}

impl Eq for Packet {}

impl fmt::Debug for Packet {
    fn fmt(&self, f: &mut fmt::Formatter<'_>) -> fmt::Result {
        f.debug_struct("Packet")
            .field("buf", &self.buf())
            .field("len", &self.len())
            .field("src", &self.src())
            .field("dst", &self.dst())
            .field("proto", &self.proto())
            .field("ports", &self.ports())
            .field("prio", &self.prio())
            .field("ecn", &self.ecn())
            .finish()
    }
}
