//! A device that lines of tc make, and calls on it with what each has to answer.
use crate::lines::{self, New, packet};
use qtree::{Device, Error, Fate, Place, Polled, Refusal, Row, Settings};

/// What becomes of a packet that is queued.
pub const KEPT: Fate = Fate::Kept;

/// A tbf at the root, whose bucket is empty until a byte comes in each nanosecond: a poll asks what
/// is below it for a packet, which may not go yet. Packet 99 has emptied the bucket.
pub const GATE: [Call; 3] = [
    Call::Graft(Place::Root, 9, New::Shaper(8_000_000_000, 1500), None),
    Call::Put(99, 1500, 0, KEPT),
    Call::Take(99),
];

/// The place below the gate.
pub const GATED: Place = Place::Class(9, 1);

/// A call, and what it has to answer.
#[derive(Clone, Copy, Debug)]
pub enum Call {
    /// Where, the handle (with 0 the device chooses), what, and the refusal.
    Graft(Place, u16, New, Option<Refusal>),
    /// The handle of what is changed, to what, and the refusal.
    Change(u16, New, Option<Refusal>),
    /// The handle, and the refusal.
    Prune(u16, Option<Refusal>),
    /// The minor number of the class of 1: to which every packet goes, and the refusal.
    Filter(u16, Option<Refusal>),
    /// The class by its numbers, the IP protocol whose packets go there, and the refusal.
    Match(u16, u16, u8, Option<Refusal>),
    /// The handle whose filters go, and the refusal.
    Unfilter(u16, Option<Refusal>),
    /// The class by its numbers, its quantum (0 for none), and the refusal.
    AddClass(u16, u16, u32, Option<Refusal>),
    /// The same.
    ChangeClass(u16, u16, u32, Option<Refusal>),
    /// The class by its numbers, and the refusal.
    DelClass(u16, u16, Option<Refusal>),
    /// The number, the length and the priority of a packet, and what becomes of it.
    Put(u64, u16, u8, Fate),
    /// The number of the packet that a poll gives; 0 where none is.
    Take(u64),
    /// A poll that gives no packet, though one is queued. A qdisc that has to dequeue the packet
    /// that it shows, below one that may not send, holds it from then on.
    Later,
    /// The time of the calls to come, in nanoseconds.
    At(u64),
    /// The packets that arrived, were sent, refused and dropped, and that are queued.
    Counts(Place, [u64; 5]),
    /// Their bytes.
    Bytes(Place, [u64; 5]),
    /// There is no such place.
    Absent(Place),
    /// The totals are what the top counted.
    Totals,
    /// How far on in the order of show, where, and the handle; 0 for an implicit leaf.
    Shown(usize, Place, u16),
    /// How many qdiscs there are.
    Nodes(usize),
    /// How far on in the order of show, and how many flows are listed there as new and as old, if
    /// it is an fq_codel.
    Flows(usize, Option<(u32, u32)>),
    /// How many packets were lost so far.
    Losses(usize),
    /// When the oldest packet of a place arrived, in nanoseconds.
    Oldest(Place, Option<u64>),
}

impl Call {
    /// The line that the call is, if it is one, and the refusal.
    fn line(self) -> Option<(String, Option<Refusal>)> {
        Some(match self {
            Call::Graft(place, major, new, refusal) => (lines::graft(place, major, new), refusal),
            Call::Change(major, new, refusal) => (lines::change(None, major, new), refusal),
            Call::Prune(major, refusal) => (lines::prune(None, major), refusal),
            Call::Filter(minor, refusal) => (lines::add_filter(1, (1, minor), None), refusal),
            Call::Match(major, minor, proto, refusal) => (
                lines::add_filter(major, (major, minor), Some(proto)),
                refusal,
            ),
            Call::Unfilter(major, refusal) => (lines::del_filters(major, 1), refusal),
            Call::AddClass(major, minor, quantum, refusal) => {
                (lines::add_class(major, (major, minor), quantum), refusal)
            }
            Call::ChangeClass(major, minor, quantum, refusal) => {
                (lines::change_class(0, (major, minor), quantum), refusal)
            }
            Call::DelClass(major, minor, refusal) => (lines::del_class(0, (major, minor)), refusal),
            _ => return None,
        })
    }
}

/// The packets that arrived, were sent, refused and dropped, and that are queued.
pub fn packets(row: Row) -> [u64; 5] {
    [row.arrived, row.sent, row.refused, row.dropped, row.queued].map(|it| it.packets)
}

fn bytes(row: Row) -> [u64; 5] {
    [row.arrived, row.sent, row.refused, row.dropped, row.queued].map(|it| it.bytes)
}

/// A device with a pfifo of so many packets, of at most 1500 bytes each.
pub fn device(limit: u32) -> Result<Device, Error> {
    Device::open(Settings {
        mtu: 1500,
        txqueuelen: limit,
        ..Settings::default()
    })
}

/// A device under test, the time of the calls to come, and how many losses it handed out.
struct Bench {
    device: Device,
    now: u64,
    lost: usize,
}

impl Bench {
    /// The number of the packet that a poll gives; 0 where none is. What the device says of the
    /// time of the next packet, and of what is queued, agrees.
    fn take(&mut self, step: &str) -> Result<u64, Error> {
        let ready = self.device.ready_at();
        let queued = self.device.totals().queued.packets;
        match self.device.poll(self.now)? {
            Polled::Packet(packet) => {
                assert!(ready.is_some_and(|at| at <= self.now), "{step}: {ready:?}");
                Ok(packet.number())
            }
            Polled::Idle => {
                assert_eq!((ready, queued), (None, 0), "{step}");
                Ok(0)
            }
            Polled::Later => {
                let ready = self.device.ready_at();
                assert!(ready.is_none_or(|at| at > self.now), "{step}: {ready:?}");
                assert_ne!(queued, 0, "{step}");
                Ok(0)
            }
        }
    }

    /// Makes a call that is an event, or names the time of those to come.
    fn act(&mut self, call: Call, step: &str) -> Result<(), Error> {
        match call {
            Call::Put(number, len, prio, fate) => {
                let answer = self.device.arrive(&packet(number, len, prio), self.now)?;
                assert_eq!(answer, fate, "{step}");
            }
            Call::Take(number) => assert_eq!(self.take(step)?, number, "{step}"),
            Call::Later => {
                assert_ne!(self.device.totals().queued.packets, 0, "{step}");
                assert_eq!(self.take(step)?, 0, "{step}");
            }
            Call::At(ns) => self.now = ns,
            seen => self.check(seen, step),
        }
        Ok(())
    }

    /// Makes a call that only looks at the device.
    fn check(&mut self, call: Call, step: &str) {
        let device = &mut self.device;
        match call {
            Call::Counts(place, counts) => {
                assert_eq!(device.stats(place).map(packets), Some(counts), "{step}");
            }
            Call::Bytes(place, counts) => {
                assert_eq!(device.stats(place).map(bytes), Some(counts), "{step}");
            }
            Call::Absent(place) => assert_eq!(device.stats(place), None, "{step}"),
            Call::Totals => {
                assert_eq!(device.stats(Place::Top), Some(device.totals()), "{step}");
            }
            Call::Shown(i, place, major) => {
                let shown = device.nodes().get(i).map(|it| (it.place, it.handle));
                let handle = (major != 0).then_some(major);
                assert_eq!(shown, Some((place, handle)), "{step}");
            }
            Call::Nodes(count) => assert_eq!(device.nodes().len(), count, "{step}"),
            Call::Flows(i, flows) => {
                let listed = device.nodes().get(i).and_then(|it| it.listed);
                assert_eq!(listed.map(|it| (it.new, it.old)), flows, "{step}");
            }
            Call::Losses(count) => {
                self.lost += device.losses().count();
                assert_eq!(self.lost, count, "{step}");
            }
            Call::Oldest(place, ns) => assert_eq!(device.oldest(place), ns, "{step}"),
            other => panic!("{step}: {other:?} is no look at the device"),
        }
    }

    fn play(&mut self, calls: &[Call]) -> Result<(), Error> {
        for (place, &call) in calls.iter().enumerate() {
            let step = format!("call {place}: {call:?}");
            match call.line() {
                Some((line, refusal)) => {
                    let answer = self.device.command(&line, self.now);
                    let expected = refusal.map_or(Ok(()), |it| Err(Error::Refused(it)));
                    assert_eq!(answer, expected, "{step}");
                }
                None => self.act(call, &step)?,
            }
        }
        Ok(())
    }
}

/// A new device, whose pfifo has so many packets, after these calls.
pub fn played(limit: u32, calls: &[Call]) -> Result<Device, Error> {
    let mut bench = Bench {
        device: device(limit)?,
        now: 0,
        lost: 0,
    };
    bench.play(calls)?;
    Ok(bench.device)
}

/// Plays these calls on a new device, whose pfifo has so many packets.
pub fn play_small(limit: u32, calls: &[Call]) -> Result<(), Error> {
    played(limit, calls).map(drop)
}

/// Plays these calls on a new device, whose pfifo has 100 packets.
pub fn play(calls: &[Call]) -> Result<(), Error> {
    play_small(100, calls)
}
