//! The fq_codel of a device beside plain lists: the same calls give the same packets, losses, marks
//! and counts.
use crate::plain_codel::Options;
use crate::plain_fq_codel::PlainFqCodel;
use crate::words::Words;
use qtree::{Cause, Device, Error, Packet, Polled, Settings};

const CALLS: u64 = 10_000;

/// Both bodies, and how much of each kind was seen.
struct Twins {
    device: Device,
    plain: PlainFqCodel,
    sent: u64,
    marked: u64,
    dropped: u64,
    shed: u64,
    purged: u64,
}

/// The line that makes an fq_codel with these options.
fn added(options: &Options) -> String {
    let (flows, drop_batch) = (options.flows, options.drop_batch);
    let others = others(options);
    format!("tc qdisc add dev wan root fq_codel flows {flows} drop_batch {drop_batch} {others}")
}

/// The options that a change may name.
fn others(options: &Options) -> String {
    let ecn = if options.ecn { "ecn" } else { "noecn" };
    let (target, interval) = (time(options.target), time(options.interval));
    let Options { limit, quantum, .. } = options;
    format!("limit {limit} quantum {quantum} target {target} interval {interval} {ecn}")
}

/// So many nanoseconds, as a line has them.
fn time(ns: u64) -> String {
    format!("{}.{:03}us", ns / 1000, ns % 1000)
}

impl Twins {
    fn new(options: Options) -> Result<Twins, Error> {
        let mut device = Device::open(Settings {
            mtu: options.mtu,
            ..Settings::default()
        })?;
        device.command(&added(&options), 0)?;
        Ok(Twins {
            device,
            plain: PlainFqCodel::new(options),
            sent: 0,
            marked: 0,
            dropped: 0,
            shed: 0,
            purged: 0,
        })
    }

    fn put(&mut self, packet: Packet, now: u64) -> Result<(), Error> {
        let fate = self.device.arrive(&packet, now)?;
        assert_eq!(fate, self.plain.arrive(packet, now), "{packet:?} at {now}");
        Ok(())
    }

    fn take(&mut self, now: u64) -> Result<(), Error> {
        let polled = self.device.poll(now)?;
        let Some((packet, marked)) = self.plain.poll(now) else {
            assert_eq!(polled, Polled::Idle, "at {now}");
            return Ok(());
        };
        let ecn = if marked { 3 } else { packet.ecn() };
        let leaving = packet_with(packet.number(), packet.len(), packet.hash(), ecn);
        assert_eq!(polled, Polled::Packet(leaving), "at {now}");
        self.sent += 1;
        self.marked += u64::from(marked);
        Ok(())
    }

    /// Other options, by a word.
    fn change(&mut self, word: u64, now: u64) -> Result<(), Error> {
        let options = Options {
            limit: 20 + word % 300,
            quantum: 300 + ((word >> 9) % 2000) as u32,
            target: 1_000_000 + (word >> 21) % 8_000_000,
            interval: 50_000_000 + (word >> 11) % 100_000_000,
            ecn: (word >> 20) % 2 == 0,
            ..self.plain.options()
        };
        let line = format!("tc qdisc change dev wan root fq_codel {}", others(&options));
        self.device.command(&line, now)?;
        self.plain.change(options);
        Ok(())
    }

    /// The fq_codel goes, with its packets, and another with the same options comes.
    fn purge(&mut self, now: u64) -> Result<(), Error> {
        self.device.command("tc qdisc del dev wan root", now)?;
        self.device.command(&added(&self.plain.options()), now)?;
        self.plain.purge();
        Ok(())
    }

    /// The call that a word says: 609 of 1024 put a packet, 407 take one, 7 change the options and
    /// one purges.
    fn call(&mut self, number: u64, word: u64, now: u64) -> Result<(), Error> {
        match word % 1024 {
            0 => self.purge(now),
            1..=7 => self.change(word >> 10, now),
            8..=616 => self.put(packet_of(number, word), now),
            _ => self.take(now),
        }
    }

    /// Both have the same options, as many packets, bytes and listed flows, and have lost the same
    /// packets in the same order.
    fn compare(&mut self, number: u64) {
        let nodes = self.device.nodes();
        let [node] = nodes.as_slice() else {
            panic!("{} qdiscs after call {number}", nodes.len());
        };
        let options = Some(self.plain.options());
        assert_eq!(Options::of(node.qdisc), options, "after call {number}");
        assert_eq!(node.row.queued, self.plain.queued(), "after call {number}");
        let listed = node.listed.map(|it| (it.new as usize, it.old as usize));
        assert_eq!(listed, Some(self.plain.listed()), "after call {number}");
        let losses: Vec<_> = self
            .device
            .losses()
            .map(|it| (it.packet, it.cause))
            .collect();
        assert_eq!(losses, self.plain.losses(), "after call {number}");
        for (_, cause) in losses {
            self.note(cause);
        }
    }

    fn note(&mut self, cause: Cause) {
        match cause {
            Cause::CoDel => self.dropped += 1,
            Cause::FatFlow => self.shed += 1,
            _ => self.purged += 1,
        }
    }

    /// What the calls are to try has come about, and the device has counted it.
    fn saw_all_kinds(&self, flows: u32) {
        assert!(self.sent > 1000 && self.shed > 0 && self.purged > 0);
        assert!(flows > 3 || (self.marked > 0 && self.dropped > 0));
        let totals = self.device.totals();
        let lost = self.dropped + self.shed + self.purged;
        assert_eq!(
            (
                totals.sent.packets,
                totals.marked.packets,
                totals.dropped.packets
            ),
            (self.sent, self.marked, lost)
        );
    }
}

fn length_of(word: u64) -> u16 {
    60 + ((word >> 10) % 1454) as u16
}

/// Below a power of two, which is at most 65536.
fn hash_of(word: u64) -> u32 {
    let most = (1u32 << ((word >> 24) % 17)) - 1;
    ((word >> 30) % 65536) as u32 & most
}

/// ECT(0), or none.
fn codepoint_of(word: u64) -> u8 {
    if (word >> 29) % 2 == 0 { 2 } else { 0 }
}

/// The packet that a word says: most are of few flows.
fn packet_of(number: u64, word: u64) -> Packet {
    packet_with(number, length_of(word), hash_of(word), codepoint_of(word))
}

fn packet_with(number: u64, len: u16, hash: u32, ecn: u8) -> Packet {
    let packet = Packet::builder(len).number(0, number).hash(hash).ecn(ecn);
    packet.build().expect("a packet within its ranges")
}

fn options_with(flows: u32, drop_batch: u32) -> Options {
    Options {
        limit: 200,
        flows,
        quantum: 1514,
        target: 5_000_000,
        interval: 100_000_000,
        ecn: true,
        drop_batch,
        mtu: 1514,
    }
}

/// Makes the calls of the word sequence.
fn play(flows: u32, drop_batch: u32) -> Result<(), Error> {
    let mut twins = Twins::new(options_with(flows, drop_batch))?;
    let mut words = Words::new();
    let mut now = 0;
    for number in 0..CALLS {
        let word = words.next();
        now += (word >> 40) % 2_000_000;
        twins.call(number, word, now)?;
        twins.compare(number);
    }
    twins.saw_all_kinds(flows);
    Ok(())
}

/// With batches of 1, 3 and 64.
fn play_all(flows: u32) -> Result<(), Error> {
    [1, 3, 64]
        .into_iter()
        .try_for_each(|drop_batch| play(flows, drop_batch))
}

#[test]
fn one_flow() -> Result<(), Error> {
    play_all(1)
}

#[test]
fn three_flows() -> Result<(), Error> {
    play_all(3)
}

#[test]
fn a_thousand_flows() -> Result<(), Error> {
    play_all(1000)
}

#[test]
fn as_many_flows_as_may_be() -> Result<(), Error> {
    play_all(65536)
}
