//! A device that lines of tc make, and calls on it with what each has to answer.
use crate::bench::packets;
use crate::lines::{self, New};
use qtree::{
    Cause, Device, Error, Event, EventKind, Fate, Node, Place, Polled, Refusal, Row, Settings, Show,
};

/// What a line of tc asks for.
#[derive(Clone, Copy, Debug, PartialEq, Eq)]
pub enum Ask {
    /// Where, the handle (with 0 the device chooses), and what.
    Graft(Place, u16, New),
    /// The handle of what is changed, and to what.
    Change(u16, New),
    /// The handle of what is removed.
    Prune(u16),
    /// The class by its numbers, and its quantum (0 for none).
    AddClass(u16, u16, u32),
    /// The same.
    ChangeClass(u16, u16, u32),
    /// The class by its numbers.
    DelClass(u16, u16),
    /// The class by its numbers, and the IP protocol whose packets go there.
    Match(u16, u16, u8),
    /// The handle whose filters go.
    Unfilter(u16),
}

impl Ask {
    /// The line.
    pub fn line(self) -> String {
        match self {
            Ask::Graft(place, major, new) => lines::graft(place, major, new),
            Ask::Change(major, new) => lines::change(None, major, new),
            Ask::Prune(major) => lines::prune(None, major),
            Ask::AddClass(major, minor, quantum) => {
                lines::add_class(major, (major, minor), quantum)
            }
            Ask::ChangeClass(major, minor, quantum) => {
                lines::change_class(0, (major, minor), quantum)
            }
            Ask::DelClass(major, minor) => lines::del_class(0, (major, minor)),
            Ask::Match(major, minor, proto) => {
                lines::add_filter(major, (major, minor), Some(proto))
            }
            Ask::Unfilter(major) => lines::del_filters(major, 1),
        }
    }
}

/// Does what these lines ask for, before any packet arrives.
pub fn set_up(device: &mut Device, lines: &[Ask]) -> Result<(), Error> {
    lines
        .iter()
        .try_for_each(|ask| device.command(&ask.line(), 0))
}

/// A call, and what it has to answer.
#[derive(Clone, Copy, Debug, PartialEq, Eq)]
pub enum Call {
    /// The line, its time, and the refusal.
    Do(Ask, u64, Option<Refusal>),
    /// The number, the length, the priority and the time of a packet, and what becomes of it.
    Arrive(u64, u16, u8, u64, Fate),
    /// The time, and the number of the packet that is given; 0 where the device is idle.
    Poll(u64, u64),
    /// The time of a poll that gives no packet, though one is queued.
    Later(u64),
    /// The time before which no poll gives a packet.
    Ready(u64),
    /// No poll gives one, however late.
    NeverReady,
    /// The number of the packet that was lost, and why.
    Reap(u64, Cause),
    /// No loss waits.
    ReapNone,
    /// A place in the recorder, and the line and the time there.
    Recorded(usize, Ask, u64),
    /// A place in the recorder, and the number, the length, the priority and the time of the
    /// arrival there.
    RecordedArrival(usize, u64, u16, u8, u64),
    /// How many events are recorded, and how many there were.
    Events(usize, u64),
    /// The packets that arrived, were sent, refused and dropped, and that are queued.
    Counts(Place, [u64; 5]),
    /// How many packets the device can hold.
    Most(u64),
}

impl Call {
    /// The call with what the device answers in place of what it has to answer.
    fn answered(self, device: &mut Device) -> Result<Call, Error> {
        Ok(match self {
            Call::Do(ask, ns, _) => Call::Do(ask, ns, refusal(device, ask, ns)?),
            Call::Arrive(number, len, prio, ns, _) => {
                let packet = lines::packet(number, len, prio);
                Call::Arrive(number, len, prio, ns, device.arrive(&packet, ns)?)
            }
            Call::Poll(ns, _) | Call::Later(ns) => match device.poll(ns)? {
                Polled::Packet(packet) => Call::Poll(ns, packet.number()),
                Polled::Idle => Call::Poll(ns, 0),
                Polled::Later => Call::Later(ns),
            },
            Call::Ready(_) | Call::NeverReady => {
                device.ready_at().map_or(Call::NeverReady, Call::Ready)
            }
            Call::Reap(..) | Call::ReapNone => match device.losses().next() {
                Some(loss) => Call::Reap(loss.packet.number(), loss.cause),
                None => Call::ReapNone,
            },
            Call::Recorded(i, ask, _) => {
                let line = ask.line().replace(" dev wan ", " dev eth0 ");
                Call::Recorded(i, ask, recorded(device, i, EventKind::Commanded(line))?)
            }
            Call::RecordedArrival(i, number, len, prio, _) => {
                let packet = lines::packet(number, len, prio);
                let ns = recorded(device, i, EventKind::Arrived(packet))?;
                Call::RecordedArrival(i, number, len, prio, ns)
            }
            Call::Events(..) => {
                let (events, recorded) = device.events();
                Call::Events(recorded, events)
            }
            Call::Counts(place, _) => Call::Counts(place, counts(device, place)),
            Call::Most(_) => Call::Most(device.most_packets()),
        })
    }
}

/// What is seen of a device without a change of it, but for the losses that wait.
#[derive(Debug, PartialEq, Eq)]
struct Seen {
    totals: Row,
    nodes: Vec<Node>,
    shown: [String; 4],
    /// While a packet waits that may go, this is the time that counted last.
    ready: Option<u64>,
    events: (u64, usize),
    recorded: Option<Event>,
}

impl Seen {
    fn of(device: &Device) -> Result<Seen, Error> {
        let (events, recorded) = device.events();
        Ok(Seen {
            totals: device.totals(),
            nodes: device.nodes(),
            shown: [
                device.show(Show::Qdiscs)?,
                device.show(Show::Counters)?,
                device.show(Show::Classes)?,
                device.show(Show::Filters)?,
            ],
            ready: device.ready_at(),
            events: (events, recorded),
            recorded: device.recorded(recorded.saturating_sub(1))?,
        })
    }
}

/// How a line is refused, which then has changed nothing; `None` if it is done.
fn refusal(device: &mut Device, ask: Ask, ns: u64) -> Result<Option<Refusal>, Error> {
    let before = Seen::of(device)?;
    match device.command(&ask.line(), ns) {
        Ok(()) => Ok(None),
        Err(Error::Refused(refusal)) => {
            assert_eq!(Seen::of(device)?, before, "changed by {ask:?}, refused");
            Ok(Some(refusal))
        }
        Err(failed) => Err(failed),
    }
}

/// The time of what is recorded at this place, which is this.
fn recorded(device: &Device, i: usize, expected: EventKind) -> Result<u64, Error> {
    match device.recorded(i)? {
        Some(event) => {
            assert_eq!(event.kind, expected, "recorded at {i}");
            Ok(event.moment)
        }
        None => panic!("nothing is recorded at {i}, where {expected:?} has to be"),
    }
}

fn counts(device: &Device, place: Place) -> [u64; 5] {
    packets(device.stats(place).expect("the place is there"))
}

/// Makes these calls on a new device, whose pfifo has so many packets, of at most 1500 bytes each.
/// It records three events.
pub fn called_small(limit: u32, calls: &[Call]) -> Result<(), Error> {
    let mut device = Device::open(Settings {
        mtu: 1500,
        txqueuelen: limit,
        recorder: 3,
    })?;
    for (i, call) in calls.iter().enumerate() {
        assert_eq!(call.answered(&mut device)?, *call, "call {i}");
    }
    Ok(())
}

/// The same, where its pfifo has 100 packets.
pub fn called(calls: &[Call]) -> Result<(), Error> {
    called_small(100, calls)
}
