//! A device to which events happen one after the other, each of which is to be done; and another
//! one that does all of them again.
use crate::device_bench::Ask;
use crate::lines::packet;
use qtree::{Device, Error, EventKind, Fate, Place, Polled, Settings};

/// A device that records all that happens to it, and what it answered.
pub struct Played {
    device: Device,
    answers: Vec<Answer>,
    settings: Settings,
}

/// What an event is answered.
#[derive(Clone, Copy, PartialEq, Eq, Debug)]
enum Answer {
    Done,
    Fate(Fate),
    Polled(Polled),
}

impl Played {
    /// A new device with this mtu, which records up to 10,000 events.
    pub fn new(mtu: u16) -> Result<Played, Error> {
        let settings = Settings {
            mtu,
            txqueuelen: 10_000,
            recorder: 10_000,
        };
        Ok(Played {
            device: Device::open(settings)?,
            answers: Vec::new(),
            settings,
        })
    }

    /// These lines are done.
    pub fn tc(&mut self, lines: &[Ask]) -> Result<(), Error> {
        for ask in lines {
            self.device.command(&ask.line(), 0)?;
            self.answers.push(Answer::Done);
        }
        Ok(())
    }

    /// A packet of this length and priority is queued.
    pub fn arrive(&mut self, len: u16, prio: u8, ns: u64) -> Result<(), Error> {
        let number = self.answers.len() as u64;
        let fate = self.device.arrive(&packet(number, len, prio), ns)?;
        assert_eq!(fate, Fate::Kept, "event {number}");
        self.answers.push(Answer::Fate(fate));
        Ok(())
    }

    /// What a poll comes to.
    pub fn poll(&mut self, ns: u64) -> Result<Polled, Error> {
        let polled = self.device.poll(ns)?;
        self.answers.push(Answer::Polled(polled));
        Ok(polled)
    }

    /// From which nanosecond on a poll may give a packet.
    pub fn ready(&self) -> Option<u64> {
        self.device.ready_at()
    }

    /// The bytes that the node in this place has given to the one above.
    pub fn sent(&self, place: Place) -> u64 {
        let row = self.device.stats(place).expect("a place");
        row.sent.bytes
    }

    /// The priorities of the packets that were lost since this was asked last.
    pub fn reap(&mut self) -> Vec<u8> {
        let losses = self.device.losses();
        losses.map(|loss| loss.packet.prio()).collect()
    }

    /// All events were recorded, and a new device to which they happen answers each of them in the
    /// same way.
    pub fn assert_played_again(&self) -> Result<(), Error> {
        let count = self.answers.len();
        assert_eq!(self.device.events(), (count as u64, count));
        let mut again = Device::open(self.settings)?;
        for (nth, answer) in self.answers.iter().enumerate() {
            let event = self.device.recorded(nth)?.expect("a recorded event");
            let another = match event.kind {
                EventKind::Arrived(packet) => Answer::Fate(again.arrive(&packet, event.moment)?),
                EventKind::Polled => Answer::Polled(again.poll(event.moment)?),
                EventKind::Commanded(line) => {
                    again.command(&line, event.moment)?;
                    Answer::Done
                }
            };
            assert_eq!(another, *answer, "event {nth}");
        }
        Ok(())
    }
}
