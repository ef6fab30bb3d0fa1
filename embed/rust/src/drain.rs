use crate::board::Board;
use crate::count::Count;
use crate::device::Device;
use crate::error::Error;
use crate::gauge::Gauge;
use crate::outlet::Outlet;
use crate::packet::Packet;
use crate::place::Place;
use crate::port::Port;
use crate::raw::{open_ring, sys};
use crate::ring_state::RingState;
use crate::settings::Settings;
use crate::settled::Settled;
use crate::turn::Turn;
use alloc::sync::Arc;
use alloc::vec::Vec;

/// A device with the rings of many senders. Each sender has a [`Port`]. The drain takes in what the
/// ports have placed, and polls.
///
/// A drain may move to another thread. Ports, drain and gauges are dropped in any order. Once the
/// drain is dropped, what is left in the rings is discarded, and offers return `Closed`. No call
/// waits: between two turns a program sleeps until [`Device::ready_at`], or until a sender wakes
/// it, for example by `std::thread::Thread::unpark`.
///
/// ```
/// use qtree::{Drain, Packet, Settings};
///
/// let (mut drain, ports) = Drain::open(Settings::default(), 2, 64)?;
/// drain.device_mut().command("tc qdisc add dev wan root handle 1: fq_codel", 0)?;
/// for mut port in ports {
///     let packet = Packet::builder(1000).buf(port.index()).build()?;
///     std::thread::spawn(move || port.offer(&packet));
/// }
/// let mut sent = Vec::new();
/// while drain.open_ports() > 0 {
///     drain.turn(0, 32, &mut sent)?;
/// }
/// let settled = drain.settle(0)?;
/// drain.turn(0, 32, &mut sent)?;
/// assert!(settled.adds_up && settled.taken.packets == 2 && sent.len() == 2);
/// # Ok::<(), qtree::Error>(())
/// ```
#[derive(Debug)]
pub struct Drain {
    device: Device,
    outlets: Vec<Outlet>,
    /// The index of the ring after the one that was taken from last.
    next: usize,
    board: Arc<Board>,
}

impl Drain {
    /// Opens a drain with a new device, and `ports` ports, at least 1. Each port has a ring of
    /// `places` places, 1 to 65536. The ports are returned in the order of their indices.
    ///
    /// # Errors
    ///
    /// `OutOfRange` for 0 ports, and for a ring or a setting that is out of its range; `Memory` if
    /// an allocation fails.
    pub fn open(
        settings: Settings,
        ports: u32,
        places: usize,
    ) -> Result<(Drain, Vec<Port>), Error> {
        let count = usize::try_from(ports).map_err(|_| Error::Memory)?;
        if count == 0 {
            return Err(Error::OutOfRange);
        }
        let (mut opened, mut outlets) = (Vec::new(), Vec::new());
        opened.try_reserve_exact(count).map_err(|_| Error::Memory)?;
        outlets
            .try_reserve_exact(count)
            .map_err(|_| Error::Memory)?;
        for index in 0..ports {
            let (port, outlet) = open_ring(index, places).map_err(Error::of)?;
            let ring = Arc::new(RingState::default());
            opened.push(Port::new(port, index, ring.clone()));
            outlets.push(Outlet::new(outlet, ring));
        }
        let drain = Drain {
            device: Device::open(settings)?,
            outlets,
            next: 0,
            board: Arc::default(),
        };
        Ok((drain, opened))
    }

    /// Takes a turn: packets arrive from the rings, then the device is polled, and then its
    /// counters are published for gauges.
    ///
    /// At most `most` packets leave the rings, one from each ring in turn, beginning after the ring
    /// from which the last packet was taken. Then there are at most `most` polls, until one returns
    /// no packet. The polled packets are appended to `sent`. If `sent` has room for `most` more
    /// packets, only the arrivals allocate.
    ///
    /// # Errors
    ///
    /// `OutOfRange` if the time is out of its range; `Memory` if the room in `sent` cannot be
    /// allocated. On an error nothing has changed. (If the allocation of an arrival fails,
    /// [`Turn::memory`] says so.)
    pub fn turn(&mut self, now: u64, most: usize, sent: &mut Vec<Packet>) -> Result<Turn, Error> {
        sent.try_reserve(most).map_err(|_| Error::Memory)?;
        let (taken, memory) = self.collect(now, most)?;
        let polled = self.device.poll_many(now, most, sent)?;
        self.publish();
        Ok(Turn {
            taken,
            sent: polled,
            memory,
        })
    }

    /// Returns how many ports are not closed yet.
    #[must_use]
    pub fn open_ports(&self) -> usize {
        let open = |it: &&Outlet| it.placed().is_none();
        self.outlets.iter().filter(open).count()
    }

    /// Takes in all that is left in the rings, once every port is closed, and compares what was
    /// placed with what was taken in.
    ///
    /// The packets are queued or lost as in a turn. If the tree may not have room for all of them,
    /// take turns first, until one takes nothing.
    ///
    /// # Errors
    ///
    /// `OpenPorts` if a port is not closed yet; `OutOfRange` if the time is out of its range;
    /// `Memory` if the allocation of an arrival fails: what was taken in has arrived, and another
    /// call settles the rest.
    pub fn settle(&mut self, now: u64) -> Result<Settled, Error> {
        let mut settled = Settled {
            placed: Count::default(),
            taken: Count::default(),
            adds_up: true,
        };
        if self.open_ports() > 0 {
            return Err(Error::OpenPorts);
        }
        let (_, memory) = self.collect(now, usize::MAX)?;
        self.publish();
        if memory {
            return Err(Error::Memory);
        }
        for outlet in &mut self.outlets {
            settled.add(outlet.placed().unwrap_or_default(), outlet.taken());
        }
        Ok(settled)
    }

    /// What was taken in of the port with this index so far; `None` where there is no such port.
    pub fn share(&self, port: u32) -> Option<Count> {
        let index = usize::try_from(port).ok()?;
        self.outlets.get(index).map(Outlet::taken)
    }

    /// Its device, to read of it: counters, qdiscs, shows, the recorder, and the time of the next turn.
    #[must_use]
    pub fn device(&self) -> &Device {
        &self.device
    }

    /// Returns the device, for commands, counters, texts, losses, and the time of the next turn.
    /// The next turn publishes its counters.
    pub fn device_mut(&mut self) -> &mut Device {
        &mut self.device
    }

    /// Returns a reader of the device's counters, for any thread.
    #[must_use]
    pub fn gauge(&self) -> Gauge {
        Gauge::new(self.board.clone())
    }

    /// Takes in up to `most` packets, one from each ring in turn. Returns how many, and whether an
    /// allocation failure ended it.
    fn collect(&mut self, now: u64, most: usize) -> Result<(usize, bool), Error> {
        let (mut at, mut taken, mut empty) = (self.next, 0, 0);
        while taken < most && empty < self.outlets.len() {
            let (code, count) = self.outlets[at].take_in(&mut self.device, now);
            at = (at + 1) % self.outlets.len();
            match code {
                sys::QTREE_DONE if count == 0 => empty += 1,
                sys::QTREE_DONE => {
                    (taken, empty, self.next) = (taken + count, 0, at);
                }
                sys::QTREE_MEMORY => return Ok((taken, true)),
                code => return Err(Error::of(code)),
            }
        }
        Ok((taken, false))
    }

    fn publish(&mut self) {
        if let Some(row) = self.device.stats(Place::Top) {
            self.board.publish(&row);
        }
    }
}
