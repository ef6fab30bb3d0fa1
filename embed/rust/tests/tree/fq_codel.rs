//! fq_codel: flows that share by quanta.
use qtree::{Cause, Device, Error, Fate, Packet, Polled, Settings};

const MS: u64 = 1_000_000;

/// A call, and what it has to answer. Times are in nanoseconds, lengths in bytes.
#[derive(Clone, Copy, Debug, PartialEq, Eq)]
enum Call {
    /// The length and the hash of a packet that arrives at time 0, and whether it is itself lost.
    /// Packets are numbered from 1.
    Put(u16, u32, bool),
    /// Ten packets of 1000 bytes with this codepoint arrive for flow 0 and are queued.
    PutTen(u8),
    /// The number of the packet that is sent unmarked at time 0; 0 where none is.
    Take(u64),
    /// The time of a poll, the number of the packet that is sent, 0 where none is, and whether it
    /// is marked.
    TakeAt(u64, u64, bool),
    /// The number of the packet that was lost first of those that wait to be handed out, and why.
    Lost(u64, Cause),
    /// No loss waits.
    NoLoss,
    /// The packets in all flows, and their bytes.
    Queued(u64, u64),
    /// The flows that are listed as new, and as old.
    Listed(u32, u32),
    /// The fq_codel goes, with its packets, and another with the same options comes.
    Purge,
    /// The limit and the quantum from then on.
    Change(u32, u32),
}

/// An fq_codel under test, at the root of a device for packets of at most 1500 bytes, and how many
/// packets arrived.
struct Bench {
    device: Device,
    counts: Counts,
    puts: u64,
}

impl Bench {
    fn new(counts: Counts) -> Result<Bench, Error> {
        let mut device = Device::open(Settings {
            mtu: 1500,
            ..Settings::default()
        })?;
        device.command(&counts.line(), 0)?;
        Ok(Bench {
            device,
            counts,
            puts: 0,
        })
    }

    /// A packet arrives at time 0.
    fn put(&mut self, len: u16, hash: u32, ecn: u8) -> Result<Fate, Error> {
        self.puts += 1;
        let packet = Packet::builder(len)
            .number(0, self.puts)
            .hash(hash)
            .ecn(ecn);
        let packet = packet.build().expect("a packet within its ranges");
        self.device.arrive(&packet, 0)
    }

    /// The number of the packet that is sent at this time, and whether it was marked; number 0
    /// where none is.
    fn take(&mut self, ns: u64) -> Result<(u64, bool), Error> {
        match self.device.poll(ns)? {
            Polled::Packet(packet) => Ok((packet.number(), packet.ecn() == 3)),
            Polled::Idle => Ok((0, false)),
            Polled::Later => panic!("a packet waits at {ns}"),
        }
    }

    /// Makes a call, and fails if it does not answer as it has to.
    fn make(&mut self, call: Call, step: &str) -> Result<(), Error> {
        match call {
            Call::Put(len, hash, is_lost) => {
                let lost = Fate::Lost(Cause::FatFlow);
                let fate = if is_lost { lost } else { Fate::Kept };
                assert_eq!(self.put(len, hash, 0)?, fate, "{step}");
            }
            Call::PutTen(ecn) => {
                for _ in 0..10 {
                    assert_eq!(self.put(1000, 0, ecn)?, Fate::Kept, "{step}");
                }
            }
            Call::Take(number) => assert_eq!(self.take(0)?, (number, false), "{step}"),
            Call::TakeAt(ns, number, marked) => {
                assert_eq!(self.take(ns)?, (number, marked), "{step}");
            }
            Call::Purge => {
                self.device.command("tc qdisc del dev wan root", 0)?;
                self.device.command(&self.counts.line(), 0)?;
            }
            Call::Change(limit, quantum) => {
                let options = format!("limit {limit} quantum {quantum}");
                let line = format!("tc qdisc change dev wan root fq_codel {options}");
                self.device.command(&line, 0)?;
            }
            seen => self.check(seen, step),
        }
        Ok(())
    }

    /// Checks what a call asks that is no event.
    fn check(&mut self, seen: Call, step: &str) {
        let root = &self.device.nodes()[0];
        let answer = match seen {
            Call::Lost(..) | Call::NoLoss => match self.device.losses().next() {
                Some(loss) => Call::Lost(loss.packet.number(), loss.cause),
                None => Call::NoLoss,
            },
            Call::Queued(..) => Call::Queued(root.row.queued.packets, root.row.queued.bytes),
            Call::Listed(..) => {
                let listed = root.listed.expect("an fq_codel");
                Call::Listed(listed.new, listed.old)
            }
            event => unreachable!("{event:?} is an event"),
        };
        assert_eq!(answer, seen, "{step}");
    }
}

/// The options that the tests choose.
#[derive(Clone, Copy)]
struct Counts {
    limit: u32,
    flows: u32,
    quantum: u32,
    drop_batch: u32,
}

/// As they are where none is named.
const USUAL: Counts = Counts {
    limit: 10_240,
    flows: 1024,
    quantum: 1514,
    drop_batch: 1,
};

impl Counts {
    fn line(self) -> String {
        let Counts {
            limit,
            flows,
            quantum,
            drop_batch,
        } = self;
        let options =
            format!("limit {limit} flows {flows} quantum {quantum} drop_batch {drop_batch}");
        format!("tc qdisc add dev wan root fq_codel {options}")
    }
}

fn limited(limit: u32, drop_batch: u32) -> Counts {
    Counts {
        limit,
        drop_batch,
        ..USUAL
    }
}

/// Makes these calls on an fq_codel without packets.
fn play(counts: Counts, calls: &[Call]) -> Result<(), Error> {
    let mut bench = Bench::new(counts)?;
    for (i, call) in calls.iter().enumerate() {
        bench.make(*call, &format!("call {i}: {call:?}"))?;
    }
    Ok(())
}

/// Flow 1 is sent its packet before flow 0 its third: flow 0 has used up its first quantum of 1514
/// bytes.
#[test]
fn flows_share_by_quanta() -> Result<(), Error> {
    play(
        USUAL,
        &[
            Call::Put(1000, 0, false),
            Call::Put(1000, 0, false),
            Call::Put(1000, 0, false),
            Call::Put(100, 1, false),
            Call::Take(1),
            Call::Take(2),
            Call::Take(4),
            Call::Take(3),
            Call::Take(0),
            Call::NoLoss,
        ],
    )
}

/// With a quantum of 1000 flow 0 has none left after its first packet. The last take finds both
/// lists empty.
#[test]
fn a_quantum_of_1000() -> Result<(), Error> {
    play(
        Counts {
            quantum: 1000,
            ..USUAL
        },
        &[
            Call::Put(1000, 0, false),
            Call::Put(1000, 0, false),
            Call::Put(100, 1, false),
            Call::Listed(2, 0),
            Call::Take(1),
            Call::Take(3),
            Call::Listed(1, 1),
            Call::Take(2),
            Call::Take(0),
            Call::Listed(0, 0),
            Call::Take(0),
            Call::NoLoss,
        ],
    )
}

/// Many rounds pass in one take, where a quantum is a byte; and there is a flow for each hash of 16
/// bits.
#[test]
fn a_quantum_of_1_and_65536_flows() -> Result<(), Error> {
    play(
        Counts {
            flows: 65536,
            quantum: 1,
            ..USUAL
        },
        &[
            Call::Put(100, 65535, false),
            Call::Put(100, 65535, false),
            Call::Put(40, 0, false),
            Call::Put(1, 65536, false),
            Call::Take(1),
            Call::Take(3),
            Call::Take(4),
            Call::Take(2),
            Call::Take(0),
            Call::NoLoss,
        ],
    )
}

#[test]
fn the_fat_flow_loses_its_first_packet() -> Result<(), Error> {
    play(
        limited(1, 1),
        &[
            Call::Put(100, 0, false),
            Call::Put(200, 0, false),
            Call::Take(2),
            Call::Take(0),
            Call::Lost(1, Cause::FatFlow),
            Call::NoLoss,
        ],
    )
}

/// Flows 3 and 7 have 300 bytes each: flow 3 is the fat one.
#[test]
fn a_tie_is_broken_to_the_lower_index() -> Result<(), Error> {
    play(
        limited(2, 1),
        &[
            Call::Put(300, 7, false),
            Call::Put(100, 3, false),
            Call::Put(200, 3, false),
            Call::Take(1),
            Call::Take(3),
            Call::Take(0),
            Call::Lost(2, Cause::FatFlow),
            Call::NoLoss,
        ],
    )
}

#[test]
fn a_batch_is_lost_at_once() -> Result<(), Error> {
    play(
        limited(3, 2),
        &[
            Call::Put(500, 0, false),
            Call::Put(500, 0, false),
            Call::Put(500, 0, false),
            Call::Put(100, 1, false),
            Call::Take(3),
            Call::Take(4),
            Call::Take(0),
            Call::Lost(1, Cause::FatFlow),
            Call::Lost(2, Cause::FatFlow),
            Call::NoLoss,
        ],
    )
}

#[test]
fn a_batch_leaves_one_packet() -> Result<(), Error> {
    play(
        limited(1, 10),
        &[
            Call::Put(100, 0, false),
            Call::Put(200, 0, false),
            Call::Take(2),
            Call::Take(0),
            Call::Lost(1, Cause::FatFlow),
            Call::NoLoss,
        ],
    )
}

/// The fat flow is the newcomer's, and is lost whole.
#[test]
fn a_batch_may_take_the_newcomer() -> Result<(), Error> {
    play(
        limited(2, 3),
        &[
            Call::Put(50, 0, false),
            Call::Put(100, 1, false),
            Call::Put(100, 1, true),
            Call::Take(1),
            Call::Take(0),
            Call::Lost(2, Cause::FatFlow),
            Call::Lost(3, Cause::FatFlow),
            Call::NoLoss,
        ],
    )
}

#[test]
fn codel_drops_within_a_flow() -> Result<(), Error> {
    play(
        USUAL,
        &[
            Call::PutTen(0),
            Call::TakeAt(10 * MS, 1, false),
            Call::TakeAt(110 * MS, 3, false),
            Call::TakeAt(210 * MS, 5, false),
            Call::TakeAt(280_710_677, 6, false),
            Call::TakeAt(280_710_678, 8, false),
            Call::TakeAt(338_445_704, 9, false),
            Call::TakeAt(338_445_704, 10, false),
            Call::TakeAt(338_445_704, 0, false),
            Call::Lost(2, Cause::CoDel),
            Call::Lost(4, Cause::CoDel),
            Call::Lost(7, Cause::CoDel),
            Call::NoLoss,
        ],
    )
}

#[test]
fn codel_marks_within_a_flow() -> Result<(), Error> {
    play(
        USUAL,
        &[
            Call::PutTen(2),
            Call::TakeAt(10 * MS, 1, false),
            Call::TakeAt(110 * MS, 2, true),
            Call::TakeAt(210 * MS, 3, true),
            Call::TakeAt(280_710_677, 4, false),
            Call::TakeAt(280_710_678, 5, true),
            Call::TakeAt(338_445_704, 6, true),
            Call::TakeAt(338_445_704, 7, false),
            Call::TakeAt(338_445_704, 8, false),
            Call::Queued(2, 2000),
            Call::NoLoss,
        ],
    )
}

#[test]
fn a_purge_takes_flow_by_flow() -> Result<(), Error> {
    play(
        USUAL,
        &[
            Call::Put(100, 5, false),
            Call::Put(100, 2, false),
            Call::Put(100, 5, false),
            Call::Queued(3, 300),
            Call::Purge,
            Call::Lost(2, Cause::Purged),
            Call::Lost(1, Cause::Purged),
            Call::Lost(3, Cause::Purged),
            Call::NoLoss,
            Call::Put(100, 5, false),
            Call::Take(4),
            Call::Take(0),
        ],
    )
}

/// A smaller limit loses nothing; the next put loses one packet, though the flows hold three too
/// many.
#[test]
fn a_change_loses_nothing() -> Result<(), Error> {
    play(
        USUAL,
        &[
            Call::Put(100, 0, false),
            Call::Put(100, 0, false),
            Call::Put(100, 0, false),
            Call::Change(1, 2000),
            Call::NoLoss,
            Call::Put(100, 1, false),
            Call::Lost(1, Cause::FatFlow),
            Call::NoLoss,
            Call::Take(2),
            Call::Take(3),
            Call::Take(4),
            Call::Take(0),
        ],
    )
}
