use crate::cause::Cause;
use crate::class::Class;
use crate::error::Error;
use crate::event::{Event, EventKind};
use crate::fate::Fate;
use crate::fault::Fault;
use crate::latest::Latest;
use crate::loss::Loss;
use crate::losses::Losses;
use crate::lost::Lost;
use crate::node::Node;
use crate::packet::Packet;
use crate::place::Place;
use crate::polled::Polled;
use crate::raw::{RawDevice, sys};
use crate::row::Row;
use crate::sent::Sent;
use crate::service::Service;
use crate::settings::Settings;
use crate::show::Show;
use crate::text::text_of;
use crate::turned::Turned;
use crate::worst::Worst;
use alloc::string::String;
use alloc::vec::Vec;

/// One scheduler: a tree of qdiscs with a clock, counters and a list of losses. It may move to
/// another thread, but only one thread at a time uses it.
///
/// ```compile_fail
/// fn shared<T: Sync>(_: T) {}
/// shared(qtree::Device::open(qtree::Settings::default()));
/// ```
#[derive(Debug)]
pub struct Device(pub(crate) RawDevice);

impl Device {
    /// Opens a device with a pfifo at its root. The memory of the recorder is allocated here.
    ///
    /// # Errors
    ///
    /// `OutOfRange` for an mtu of 0 or a recorder of more than 1,000,000 events; `Memory` if an
    /// allocation fails.
    pub fn open(settings: Settings) -> Result<Device, Error> {
        let opened = RawDevice::open(&settings.to_c()).map_err(Error::of)?;
        Ok(Device(opened))
    }

    /// Carries out one line of tc that changes the tree. The packets of what the line removes are
    /// lost, and wait among the [losses](Device::losses).
    ///
    /// ```
    /// # use qtree::{Device, Error, Fault, Refusal, Settings};
    /// let mut device = Device::open(Settings::default())?;
    /// device.command("tc qdisc add dev wan root handle 1: tbf rate 20mbit burst 3028 latency 50ms", 0)?;
    /// let again = device.command("tc qdisc add dev wan root handle 1: drr", 0);
    /// assert_eq!(again, Err(Error::Refused(Refusal::Exists)));
    /// let typo = device.command("tc qdisc ad", 0);
    /// assert_eq!(typo, Err(Error::Faulty { fault: Fault::UnknownWord, word: 3 }));
    /// # Ok::<(), Error>(())
    /// ```
    ///
    /// # Errors
    ///
    /// - `Refused` if the command cannot be carried out in this tree.
    /// - `Faulty` if the line cannot be read.
    /// - `NoCommand` if it is a line of another kind, for example one that shows something.
    /// - `OutOfRange` if the time is out of its range.
    /// - `Memory` if an allocation fails.
    ///
    /// On an error nothing has changed. [`Error::explain`] writes out what is wrong with the line.
    pub fn command(&mut self, line: &str, now: u64) -> Result<(), Error> {
        let (code, fault) = self.0.command(line.as_bytes(), now);
        match code {
            sys::QTREE_DONE => Ok(()),
            sys::QTREE_FAULTY => Err(Error::Faulty {
                fault: Fault::of(fault.number),
                word: fault.word,
            }),
            code => Err(Error::of(code)),
        }
    }

    /// A packet arrives at the device, which queues it or loses it. An arrival at a full fq_codel may
    /// lose other packets, which then wait to be reaped.
    ///
    /// ```
    /// # use qtree::{Cause, Device, Error, Fate, Packet, Settings};
    /// let mut device = Device::open(Settings::default())?;
    /// device.command("tc qdisc add dev wan root handle 1: pfifo limit 1", 0)?;
    /// let packet = Packet::builder(1000).buf(7).build()?;
    /// assert_eq!(device.arrive(&packet, 0)?, Fate::Kept);
    /// assert_eq!(device.arrive(&packet, 0)?, Fate::Lost(Cause::OverLimit));
    /// # Ok::<(), Error>(())
    /// ```
    ///
    /// # Errors
    ///
    /// `OutOfRange` for a length of 0, a priority above 15, an ECN codepoint above 3, or a time
    /// that is out of its range; `Memory` if an allocation fails. On an error the packet has not
    /// arrived.
    pub fn arrive(&mut self, packet: &Packet, now: u64) -> Result<Fate, Error> {
        fate(self.0.arrive(&packet.0, now))
    }

    /// A packet of `len` bytes arrives. Its other fields are read from its first bytes, which begin
    /// with its IP header, as [`Packet::read_hashed`] reads them. `buf` is the program's own
    /// number, and `hash` is the hash of the packet's flow, which may be 0 if no fq_codel is in the
    /// tree.
    ///
    /// ```
    /// # use qtree::{Device, Error, Fate, Polled, Settings};
    /// let mut device = Device::open(Settings::default())?;
    /// let udp = [0x45, 0, 0, 28, 0, 0, 0, 0, 64, 17, 0, 0, 10, 0, 0, 1, 10, 0, 0, 2, 0x10, 0, 0x13, 0x89, 0, 8, 0, 0];
    /// assert_eq!(device.arrive_frame(&udp, 28, 7, 0, 0)?, Fate::Kept);
    /// assert!(matches!(device.poll(0)?, Polled::Packet(it) if (it.buf(), it.ports()) == (7, (4096, 5001))));
    /// # Ok::<(), Error>(())
    /// ```
    ///
    /// # Errors
    ///
    /// `OutOfRange` for a length of 0 or a time that is out of its range; `Memory` if an allocation
    /// fails. On an error the packet has not arrived.
    pub fn arrive_frame(
        &mut self,
        bytes: &[u8],
        len: u16,
        buf: u32,
        hash: u32,
        now: u64,
    ) -> Result<Fate, Error> {
        fate(self.0.arrive_frame(bytes, len, buf, hash, now))
    }

    /// Does what [`arrive_frame`](Device::arrive_frame) does, with the hash that [`Packet::read`]
    /// computes with this seed.
    ///
    /// # Errors
    ///
    /// Those of [`arrive_frame`](Device::arrive_frame).
    pub fn arrive_frame_seeded(
        &mut self,
        bytes: &[u8],
        len: u16,
        buf: u32,
        seed: u32,
        now: u64,
    ) -> Result<Fate, Error> {
        fate(self.0.arrive_frame_seeded(bytes, len, buf, seed, now))
    }

    /// Does what [`arrive_frame`](Device::arrive_frame) does, for a packet that also has a number,
    /// which comes back with the packet.
    ///
    /// ```
    /// # use qtree::{Device, Error, Polled, Settings};
    /// let mut device = Device::open(Settings::default())?;
    /// device.arrive_frame_numbered(&[0x45, 0], 28, 7, u64::MAX, 0, 0)?;
    /// assert!(matches!(device.poll_buf(0)?, Polled::Packet(it) if (it.buf(), it.number()) == (7, u64::MAX)));
    /// # Ok::<(), Error>(())
    /// ```
    ///
    /// # Errors
    ///
    /// Those of [`arrive_frame`](Device::arrive_frame).
    pub fn arrive_frame_numbered(
        &mut self,
        bytes: &[u8],
        len: u16,
        buf: u32,
        number: u64,
        hash: u32,
        now: u64,
    ) -> Result<Fate, Error> {
        fate(
            self.0
                .arrive_frame_numbered(bytes, len, buf, number, hash, now),
        )
    }

    /// Several packets arrive in order, all at the same time, and the fate of each is appended to
    /// `fates`. If `fates` has room for all of them, only the arrivals allocate.
    ///
    /// ```
    /// # use qtree::{Cause, Device, Error, Fate, Packet, PacketError, Settings};
    /// let mut device = Device::open(Settings::default())?;
    /// device.command("tc qdisc add dev wan root handle 1: pfifo limit 2", 0)?;
    /// let burst = (0..3).map(|buf| Packet::builder(1000).buf(buf).build()).collect::<Result<Vec<_>, PacketError>>()?;
    /// let mut fates = Vec::new();
    /// device.arrive_many(&burst, 0, &mut fates)?;
    /// assert_eq!(fates, [Fate::Kept, Fate::Kept, Fate::Lost(Cause::OverLimit)]);
    /// # Ok::<(), Error>(())
    /// ```
    ///
    /// # Errors
    ///
    /// `OutOfRange` or `Memory`, as for [`arrive`](Device::arrive), for the first packet that does
    /// not arrive. The packets before it have arrived, and their fates are appended. `Memory` is
    /// also returned if the room in `fates` cannot be allocated: then no packet has arrived.
    pub fn arrive_many(
        &mut self,
        packets: &[Packet],
        now: u64,
        fates: &mut Vec<Fate>,
    ) -> Result<(), Error> {
        fates
            .try_reserve(packets.len())
            .map_err(|_| Error::Memory)?;
        let mut codes = [0; 64];
        for burst in packets.chunks(codes.len()) {
            let (code, done) = self.0.arrive_many(burst, &mut codes, now);
            for code in &codes[..done] {
                fates.push(fate(u32::from(*code))?);
            }
            if code != sys::QTREE_DONE {
                return Err(Error::of(code));
            }
        }
        Ok(())
    }

    /// Takes the packet whose turn it is. It allocates nothing. CoDel may lose other packets in a
    /// poll, which then wait among the [losses](Device::losses).
    ///
    /// ```
    /// # use qtree::{Device, Error, Packet, Polled, Settings};
    /// let mut device = Device::open(Settings::default())?;
    /// device.command("tc qdisc add dev wan root handle 1: tbf rate 8mbit burst 1000 latency 50ms", 0)?;
    /// device.arrive(&Packet::builder(1000).buf(1).build()?, 0)?;
    /// device.arrive(&Packet::builder(1000).buf(2).build()?, 0)?;
    /// assert!(matches!(device.poll(0)?, Polled::Packet(packet) if packet.buf() == 1));
    /// assert!(matches!(device.poll(0)?, Polled::Later)); // 1000 bytes at 8 Mbit/s take a millisecond
    /// assert_eq!(device.ready_at(), Some(1_000_000));
    /// # Ok::<(), Error>(())
    /// ```
    ///
    /// # Errors
    ///
    /// `OutOfRange` if the time is out of its range.
    pub fn poll(&mut self, now: u64) -> Result<Polled, Error> {
        match self.0.poll(now) {
            (sys::QTREE_DONE, packet) => Ok(Polled::Packet(Packet(packet))),
            (sys::QTREE_IDLE, _) => Ok(Polled::Idle),
            (sys::QTREE_LATER, _) => Ok(Polled::Later),
            (code, _) => Err(Error::of(code)),
        }
    }

    /// Does what [`poll`](Device::poll) does, and returns only the fields that a program needs in
    /// order to transmit the packet.
    ///
    /// ```
    /// # use qtree::{Device, Error, Packet, Polled, Settings};
    /// let mut device = Device::open(Settings::default())?;
    /// device.arrive(&Packet::builder(1500).buf(7).build()?, 0)?;
    /// assert!(matches!(device.poll_buf(0)?, Polled::Packet(sent) if (sent.buf(), sent.len()) == (7, 1500)));
    /// assert_eq!(device.poll_buf(0)?, Polled::Idle);
    /// # Ok::<(), Error>(())
    /// ```
    ///
    /// # Errors
    ///
    /// `OutOfRange` if the time is out of its range.
    pub fn poll_buf(&mut self, now: u64) -> Result<Polled<Sent>, Error> {
        match self.0.poll_buf(now) {
            (sys::QTREE_DONE, sent) => Ok(Polled::Packet(Sent(sent))),
            (sys::QTREE_IDLE, _) => Ok(Polled::Idle),
            (sys::QTREE_LATER, _) => Ok(Polled::Later),
            (code, _) => Err(Error::of(code)),
        }
    }

    /// Polls until `sent` is full, or until a poll returns no packet. Returns how many packets
    /// there are; they are the first of `sent`.
    ///
    /// ```
    /// # use qtree::{Device, Error, Packet, Sent, Settings};
    /// let mut device = Device::open(Settings::default())?;
    /// for buf in 0..3 {
    ///     device.arrive(&Packet::builder(1500).buf(buf).build()?, 0)?;
    /// }
    /// let mut sent = [Sent::default(); 32];
    /// let count = device.poll_bufs(0, &mut sent)?;
    /// assert_eq!(sent[..count].iter().map(|it| it.buf()).collect::<Vec<_>>(), [0, 1, 2]);
    /// # Ok::<(), Error>(())
    /// ```
    ///
    /// # Errors
    ///
    /// `OutOfRange` if the time is out of its range.
    pub fn poll_bufs(&mut self, now: u64, sent: &mut [Sent]) -> Result<usize, Error> {
        match self.0.poll_bufs(now, sent) {
            (sys::QTREE_DONE | sys::QTREE_IDLE | sys::QTREE_LATER, count) => Ok(count),
            (code, _) => Err(Error::of(code)),
        }
    }

    /// Polls up to `most` times, and appends the packets to `sent`, which has room for so many.
    /// Returns how many there are.
    pub(crate) fn poll_many(
        &mut self,
        now: u64,
        most: usize,
        sent: &mut Vec<Packet>,
    ) -> Result<usize, Error> {
        match self.0.poll_many(now, most, sent) {
            (sys::QTREE_DONE | sys::QTREE_IDLE | sys::QTREE_LATER, count) => Ok(count),
            (code, _) => Err(Error::of(code)),
        }
    }

    /// Returns the time before which no poll returns a packet, as long as no packet arrives and no
    /// command comes. A program sleeps until then. `None` if no poll will ever return a packet.
    ///
    /// A poll at that time may still return [`Polled::Later`], since which packet an fq_codel
    /// gives, or which class a drr serves, is not known before it is asked. The next call then
    /// returns a later time.
    #[must_use]
    pub fn ready_at(&self) -> Option<u64> {
        let (code, moment) = self.0.ready_at();
        (code == sys::QTREE_DONE).then_some(moment)
    }

    /// Takes one turn of a program's loop: polls for what is due, hands out losses, and says when to
    /// come back.
    ///
    /// If a packet may go at the time, the device is polled as by [`Device::poll_bufs`]. Otherwise
    /// it is not polled, and there is no event. Then losses are handed out, the oldest first. Each
    /// is written into the first places of its slice, and a slice may be empty.
    ///
    /// If each place of `sent` has a packet, more may be due, and if each place of `lost` has a
    /// loss, more may wait: the program takes another turn at once. Otherwise it sleeps until the
    /// time `again`, or until a packet comes in.
    ///
    /// ```
    /// # use qtree::{Device, Error, Lost, Packet, Sent, Settings};
    /// let mut device = Device::open(Settings::default())?;
    /// device.command("tc qdisc add dev wan root handle 1: tbf rate 8mbit burst 1500 limit 3000", 0)?;
    /// for buf in 0..3 {
    ///     device.arrive(&Packet::builder(1500).buf(buf).build()?, 0)?;
    /// }
    /// let (mut sent, mut lost) = ([Sent::default(); 32], [Lost::default(); 32]);
    /// let turned = device.turn(0, &mut sent, &mut lost)?;
    /// assert_eq!((turned.sent, sent[0].buf()), (1, 0)); // the bucket has tokens for one
    /// assert_eq!((turned.lost, lost[0].buf()), (1, 2)); // the limit has room for two
    /// assert_eq!(turned.again, Some(1_500_000)); // 1500 bytes take 1.5 ms
    /// # Ok::<(), Error>(())
    /// ```
    ///
    /// # Errors
    ///
    /// `OutOfRange` if the time is out of its range.
    pub fn turn(
        &mut self,
        now: u64,
        sent: &mut [Sent],
        lost: &mut [Lost],
    ) -> Result<Turned, Error> {
        match self.0.turn(now, sent, lost) {
            (sys::QTREE_DONE, turned) => Ok(Turned::of(turned)),
            (code, _) => Err(Error::of(code)),
        }
    }

    /// Returns how many packets can be queued at most, now and as long as no command changes the
    /// device. `u64::MAX` stands for more.
    ///
    /// This is the sum of the limits of all queues, and one packet for each tbf, drr and fq_codel,
    /// which may hold the packet that goes next. If a queue's limit was set below what it has
    /// queued, what it has queued counts in place of the limit. A limit in bytes counts as so many
    /// packets. A program needs a buffer for each of these packets, for the packet that arrives,
    /// for each place of a ring, for each packet that it has polled and not sent, and for each that
    /// was lost and that it has not reaped.
    ///
    /// ```
    /// # use qtree::{Device, Settings};
    /// let mut device = Device::open(Settings::default())?;
    /// device.command("tc qdisc add dev wan root fq_codel limit 3000", 0)?;
    /// assert_eq!(device.most_packets(), 3000 + 1);
    /// # Ok::<(), qtree::Error>(())
    /// ```
    #[must_use]
    pub fn most_packets(&self) -> u64 {
        self.0.most_packets()
    }

    /// Hands out the losses that were not handed out yet, the oldest first. A program that does not
    /// need its losses reads them too, since losses that wait keep memory.
    ///
    /// ```
    /// # use qtree::{Cause, Device, Error, Fate, Packet, Settings};
    /// let mut device = Device::open(Settings { mtu: 1000, ..Settings::default() })?;
    /// let fate = device.arrive(&Packet::builder(1500).buf(3).build()?, 0)?;
    /// assert_eq!(fate, Fate::Lost(Cause::TooLong));
    /// assert_eq!(device.losses().map(|loss| loss.packet.buf()).collect::<Vec<_>>(), [3]);
    /// # Ok::<(), Error>(())
    /// ```
    pub fn losses(&mut self) -> Losses<'_> {
        Losses { device: self }
    }

    pub(crate) fn reap(&mut self) -> Option<Loss> {
        match self.0.reap() {
            (sys::QTREE_DONE, loss) => Some(Loss {
                packet: Packet(loss.packet),
                cause: Cause::of(loss.cause)?,
            }),
            _ => None,
        }
    }

    /// Returns the counters of a place; `None` if there is no such place.
    #[must_use]
    pub fn stats(&self, place: Place) -> Option<Row> {
        let (code, row) = self.0.stats(place.to_c());
        (code == sys::QTREE_DONE).then(|| Row::of(row))
    }

    /// Returns when the oldest packet that is queued in a place arrived, in nanoseconds; `None` if nothing is queued there, or if there is
    /// no such place. A packet that a tbf, a drr or an fq_codel there holds is queued too.
    ///
    /// Its waiting time is the present time less this, and no other packet in the place has waited longer. The method looks once at each
    /// qdisc in the place, and at each flow of an fq_codel.
    ///
    /// ```
    /// # use qtree::{Device, Error, Packet, Place, Settings};
    /// let mut device = Device::open(Settings::default())?;
    /// assert_eq!(device.oldest(Place::Root), None);
    /// device.arrive(&Packet::builder(1000).buf(1).build()?, 5)?;
    /// device.arrive(&Packet::builder(1000).buf(2).build()?, 9)?;
    /// assert_eq!(device.oldest(Place::Root), Some(5));
    /// device.poll(9)?;
    /// assert_eq!(device.oldest(Place::Root), Some(9));
    /// # Ok::<(), Error>(())
    /// ```
    #[must_use]
    pub fn oldest(&self, place: Place) -> Option<u64> {
        let (code, moment) = self.0.oldest(place.to_c());
        (code == sys::QTREE_DONE).then_some(moment)
    }

    /// Returns what the class of a drr in a place is promised while something is queued in it.
    ///
    /// ```
    /// # use qtree::{Device, Error, Place, Settings};
    /// let mut device = Device::open(Settings::default())?;
    /// for line in [
    ///     "tc qdisc add dev wan root handle 1: tbf rate 20mbit burst 1515 latency 50ms",
    ///     "tc qdisc add dev wan parent 1:1 handle 2: drr",
    ///     "tc class add dev wan parent 2: classid 2:1 drr quantum 3000",
    ///     "tc class add dev wan parent 2: classid 2:2 drr quantum 1500",
    /// ] {
    ///     device.command(line, 0)?;
    /// }
    /// let service = device.service(Place::Class(2, 1)).expect("a class of a drr");
    /// assert_eq!((service.rate, service.slack), (Some(13_333_333), 5532));
    /// assert_eq!(service.late, Some(399));
    /// # Ok::<(), Error>(())
    /// ```
    ///
    /// Returns `None` if nothing is promised, since the place is no class of a drr; something other
    /// than drrs stands between it and the root, apart from a tbf at the root; that tbf has another
    /// tbf below it; or its burst has no room for a packet of the mtu and what its rate brings in a
    /// nanosecond.
    #[must_use]
    pub fn service(&self, place: Place) -> Option<Service> {
        let (code, promise) = self.0.service(place.to_c());
        let (_, late) = self.0.lateness(place.to_c());
        (code == sys::QTREE_DONE).then(|| Service::of(promise, late))
    }

    /// Returns how long a packet waits at most in the pfifo or bfifo in a place. The place is the
    /// root, a class that is reached by the first bands of prios alone, or a class of a drr at the
    /// root; or a tbf is at the root, and the place is such a one below it.
    ///
    /// ```
    /// # use qtree::{Device, Error, Place, Settings};
    /// let mut device = Device::open(Settings::default())?;
    /// for line in [
    ///     "tc qdisc add dev wan root handle 1: tbf rate 20mbit burst 1640 latency 50ms",
    ///     "tc qdisc add dev wan parent 1:1 handle 2: prio",
    ///     "tc qdisc add dev wan parent 2:1 handle 3: bfifo limit 3000",
    /// ] {
    ///     device.command(line, 0)?;
    /// }
    /// let worst = device.worst(Place::Class(2, 1)).expect("the fifo of the first band");
    /// assert_eq!((worst.bytes, worst.ns, worst.late), (3000, Some(1_200_000), Some(50_399)));
    /// # Ok::<(), Error>(())
    /// ```
    ///
    /// Returns `None` if nothing is promised, since the place has another qdisc or none; it is
    /// reached in another way, as by two drrs; a tbf is below the root, and the root is no drr; the
    /// burst of a tbf at the root is too small, as for [`Device::service`]; or a number would be too
    /// large.
    #[must_use]
    pub fn worst(&self, place: Place) -> Option<Worst> {
        let (code, delay) = self.0.worst(place.to_c());
        (code == sys::QTREE_DONE).then(|| Worst::of(delay))
    }

    /// Returns by when a packet has left that is to arrive next in the pfifo or bfifo in a place, so
    /// that the program can refuse it first if that is too late. For a length of 0, returns by when
    /// the packet has left that was queued there last.
    ///
    /// ```
    /// # use qtree::{Device, Error, Packet, Place, Settings};
    /// let mut device = Device::open(Settings::default())?;
    /// let line = "tc qdisc add dev wan root handle 1: tbf rate 8mbit burst 3000 limit 20000";
    /// device.command(line, 0)?;
    /// for _ in 0..2 {
    ///     device.arrive(&Packet::builder(1500).build()?, 5)?;
    ///     device.poll(5)?; // until nothing is left of the burst
    /// }
    /// let latest = device.latest(Place::Class(1, 1), 1000).expect("the fifo of the tbf");
    /// assert_eq!((latest.bytes, latest.at), (1000, Some(1_000_005)));
    /// # Ok::<(), Error>(())
    /// ```
    ///
    /// The answer counts from the time of the device's last event, which is an arrival, a poll or a
    /// command. If the packet arrives some nanoseconds after that, the time by which it has left is
    /// later by at most as many. It has left by then if it is queued: the limit of the qdisc is not
    /// looked at. If the length is 0 and nothing is queued there, `bytes` is 0, and `at` is the time
    /// of the last event; in a class of a drr, they are then for the bytes that may be sent before
    /// the class's turn.
    ///
    /// In a class of a drr, the packet has to be the device's next event: if another packet arrives
    /// first, or a poll comes first, other classes may have their turn before it, and the program
    /// asks again. Here a packet that comes to the first class waits for the 500 bytes that the other
    /// class may send before its next quantum. A byte more than the first class's quantum waits for
    /// another one, and the other class may send one more, too.
    ///
    /// ```
    /// # use qtree::{Device, Error, Packet, Place, Settings};
    /// let mut device = Device::open(Settings::default())?;
    /// for line in [
    ///     "tc qdisc add dev wan root handle 1: drr",
    ///     "tc class add dev wan parent 1: classid 1:1 drr quantum 1000",
    ///     "tc class add dev wan parent 1: classid 1:2 drr quantum 500",
    ///     "tc filter add dev wan parent 1: prio 1 flower dst_port 443 classid 1:2",
    /// ] {
    ///     device.command(line, 0)?;
    /// }
    /// device.arrive(&Packet::builder(400).ports(4096, 443).build()?, 5)?;
    /// let latest = |len| device.latest(Place::Class(1, 1), len).expect("a class of a drr");
    /// assert_eq!((latest(1000).bytes, latest(1000).at), (1500, None));
    /// assert_eq!(latest(1001).bytes, 2001);
    /// # Ok::<(), Error>(())
    /// ```
    ///
    /// Returns `None` if nothing is promised, for one of the reasons of [`Device::worst`].
    #[must_use]
    pub fn latest(&self, place: Place, len: u16) -> Option<Latest> {
        let (code, departure) = self.0.latest(place.to_c(), len);
        (code == sys::QTREE_DONE).then(|| Latest::of(departure))
    }

    /// Returns the counters of the device itself.
    #[must_use]
    pub fn totals(&self) -> Row {
        Row::of(self.0.stats(Place::Top.to_c()).1)
    }

    /// Returns all qdiscs in the order of `tc qdisc show`: each qdisc comes before those below it.
    ///
    /// ```
    /// # use qtree::{Device, Error, Place, Qdisc, Settings};
    /// let mut device = Device::open(Settings::default())?;
    /// device.command("tc qdisc add dev wan root handle 1: drr", 0)?;
    /// device.command("tc class add dev wan parent 1: classid 1:10 drr quantum 3000", 0)?;
    /// device.command("tc qdisc add dev wan parent 1:10 handle 2: pfifo limit 50", 0)?;
    /// let nodes = device.nodes();
    /// assert_eq!((nodes[0].handle, nodes[0].qdisc), (Some(1), Qdisc::Drr));
    /// assert_eq!(nodes[0].classes[0].turn.map(|it| (it.quantum, it.deficit)), Some((3000, None)));
    /// assert_eq!((nodes[1].place, nodes[1].qdisc), (Place::Class(1, 0x10), Qdisc::Pfifo { limit: 50 }));
    /// assert_eq!((nodes[0].to_string(), nodes[1].to_string()), ("drr 1: root".into(), "pfifo 2: parent 1:10".into()));
    /// # Ok::<(), Error>(())
    /// ```
    #[must_use]
    pub fn nodes(&self) -> Vec<Node> {
        let mut nodes = Vec::new();
        while let (sys::QTREE_DONE, view) = self.0.node(nodes.len()) {
            nodes.push(Node::of(view, self.classes(nodes.len())));
        }
        nodes
    }

    fn classes(&self, node: usize) -> Vec<Class> {
        let mut classes = Vec::new();
        while let (sys::QTREE_DONE, view) = self.0.class(node, classes.len()) {
            classes.push(Class::of(view));
        }
        classes
    }

    /// Returns what tc shows of the tree, as a text.
    ///
    /// ```
    /// # use qtree::{Device, Error, Settings, Show};
    /// let mut device = Device::open(Settings::default())?;
    /// device.command("tc qdisc add dev wan root handle 1: pfifo limit 100", 0)?;
    /// assert_eq!(device.show(Show::Qdiscs)?, "qdisc pfifo 1: root limit 100p\n");
    /// # Ok::<(), Error>(())
    /// ```
    ///
    /// # Errors
    ///
    /// `Memory` if an allocation fails.
    pub fn show(&self, show: Show) -> Result<String, Error> {
        text_of(|text| self.0.show(show as u32, text))
    }

    /// Returns how many events there were, and how many of them are recorded, which are the first
    /// of them. The events of a device are the arrivals, the polls and the commands that it
    /// accepts.
    #[must_use]
    pub fn events(&self) -> (u64, usize) {
        self.0.events()
    }

    /// Returns the recorded event of this index, which counts from 0; `None` if there is no such
    /// event.
    ///
    /// # Errors
    ///
    /// `Memory` if the line of a command cannot be allocated.
    pub fn recorded(&self, index: usize) -> Result<Option<Event>, Error> {
        event_of(self.0.recorded(index), |text| {
            self.0.recorded_line(index, text)
        })
    }

    /// Returns the script that plays all recorded events again.
    ///
    /// With the device's mtu and txqueuelen, `qtree-play` does with this script what the device
    /// did. So does `qtree play` if the script has at most 16,777,216 bytes, which is some 240,000
    /// packets. A script lacks the port, the number and the buf of each packet, and the addresses
    /// of one that is not IP: its packets are numbered from 1 in the order of their arrivals.
    ///
    /// ```
    /// # use qtree::{Device, Error, Packet, Settings};
    /// let mut device = Device::open(Settings { recorder: 100, ..Settings::default() })?;
    /// device.command("tc qdisc add dev wan root handle 1: pfifo limit 100", 0)?;
    /// device.poll(5)?;
    /// assert_eq!(
    ///     device.recorded_script()?,
    ///     "tc qdisc add dev eth0 root handle 1: pfifo limit 100\nat 5\npoll 1\n"
    /// );
    /// # Ok::<(), Error>(())
    /// ```
    ///
    /// # Errors
    ///
    /// `Memory` if an allocation fails.
    pub fn recorded_script(&self) -> Result<String, Error> {
        text_of(|text| self.0.recorded_script(text))
    }

    /// From now on keeps the last events, as many as `places` says: if all places are taken, the
    /// oldest event makes way for a new one. The recorder has only the first events. Events that
    /// were kept because of an earlier call are gone. With 0 places no events are kept, which is
    /// how a device begins.
    ///
    /// ```
    /// # use qtree::{Device, Error, EventKind, Packet, Settings};
    /// let mut device = Device::open(Settings::default())?;
    /// device.keep_last(2)?;
    /// device.command("tc qdisc add dev wan root handle 1: pfifo limit 100", 0)?;
    /// device.arrive(&Packet::builder(1000).buf(7).build()?, 5)?;
    /// device.poll(9)?;
    /// assert_eq!(device.last_noted(), (3, 2));
    /// let last = device.last_events()?;
    /// assert!(matches!(&last[0].kind, EventKind::Arrived(packet) if packet.buf() == 7));
    /// assert_eq!((last[1].moment, &last[1].kind), (9, &EventKind::Polled));
    /// # Ok::<(), Error>(())
    /// ```
    ///
    /// # Errors
    ///
    /// `OutOfRange` for more than 1,000,000 places; `Memory` if an allocation fails. On an error
    /// nothing has changed.
    pub fn keep_last(&mut self, places: u32) -> Result<(), Error> {
        match self.0.keep_last(places) {
            sys::QTREE_DONE => Ok(()),
            code => Err(Error::of(code)),
        }
    }

    /// Returns how many events were noted since [`keep_last`](Device::keep_last), and how many of
    /// them, the last ones, are kept.
    #[must_use]
    pub fn last_noted(&self) -> (u64, usize) {
        self.0.last_noted()
    }

    /// Returns one of the last events. The index counts from 0, which is the oldest event that is
    /// kept. `None` if there is no such event.
    ///
    /// # Errors
    ///
    /// `Memory` if the line of a command cannot be allocated.
    pub fn last_event(&self, index: usize) -> Result<Option<Event>, Error> {
        event_of(self.0.last_event(index), |text| {
            self.0.last_line(index, text)
        })
    }

    /// Returns all events that are kept, the oldest first.
    ///
    /// # Errors
    ///
    /// `Memory` if an allocation fails.
    pub fn last_events(&self) -> Result<Vec<Event>, Error> {
        let (_, kept) = self.last_noted();
        let mut events = Vec::new();
        events.try_reserve_exact(kept).map_err(|_| Error::Memory)?;
        while let Some(event) = self.last_event(events.len())? {
            events.push(event);
        }
        Ok(events)
    }
}

fn fate(code: u32) -> Result<Fate, Error> {
    match (code, Cause::of(code)) {
        (sys::QTREE_DONE, _) => Ok(Fate::Kept),
        (_, Some(cause)) => Ok(Fate::Lost(cause)),
        (code, None) => Err(Error::of(code)),
    }
}

/// An event with the answer of the call that read it, and by what its line is written.
fn event_of(
    (code, event): (u32, sys::Event),
    line: impl FnMut(&mut [u8]) -> (u32, usize),
) -> Result<Option<Event>, Error> {
    if code != sys::QTREE_DONE {
        return Ok(None);
    }
    let kind = match event.kind {
        sys::QTREE_ARRIVED => EventKind::Arrived(Packet(event.packet)),
        sys::QTREE_POLLED => EventKind::Polled,
        _ => EventKind::Commanded(text_of(line)?),
    };
    Ok(Some(Event {
        moment: event.moment,
        kind,
    }))
}
