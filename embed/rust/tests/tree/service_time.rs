//! Random plays of a tbf over a drr that is polled until no packet comes, and then at the time at
//! which it says to be ready: over every interval between two such times the tbf delivers its rate,
//! and a class that is backlogged gets its part of it; and where its child is a drr again, so does
//! a class of that.
use crate::chance::Chance;
use crate::device_bench::Ask;
use crate::lines::New;
use crate::played::Played;
use crate::rounds::MOST;
use crate::service_link::{Classes, Link, Wait};
use qtree::{Error, Place, Polled};

/// How many packets a backlogged class has before a poll, so that it does not empty where each of
/// two drrs holds one.
const DEEP: u64 = 4;

/// A link that is drained. Of the times at which no packet came between two packets the last is
/// kept.
struct Drained {
    played: Played,
    link: Link,
    queued: Vec<u64>,
    ns: u64,
    all: u64,
    last: Option<Wait>,
    waits: Vec<Wait>,
}

/// The minor number of a class, from 1.
fn minor(i: usize) -> u16 {
    i as u16 + 1
}

/// The priority of the packets of a class. The classes are counted from 0: first those of the drr,
/// then all but the first of the one below, whose packets are those of the drr's first class.
fn prio(i: usize) -> u8 {
    i as u8 + 1
}

impl Drained {
    /// A device on which nothing was done.
    fn new(link: Link) -> Result<Drained, Error> {
        let places = link.classes.0.len() + link.beneath.0.len().saturating_sub(1);
        Ok(Drained {
            played: Played::new(link.mtu)?,
            link,
            queued: vec![0; places],
            ns: 0,
            all: 0,
            last: None,
            waits: Vec::new(),
        })
    }

    fn set_up(&mut self, burst: u32) -> Result<(), Error> {
        self.played.tc(&[
            Ask::Graft(Place::Root, 1, New::Shaper(self.link.rate, burst)),
            Ask::Graft(Place::Class(1, 1), 2, New::Drr),
        ])?;
        for (i, &quantum) in self.link.classes.0.iter().enumerate() {
            self.played.tc(&[
                Ask::AddClass(2, minor(i), quantum),
                Ask::Match(2, minor(i), prio(i)),
            ])?;
        }
        if self.link.beneath.0.is_empty() {
            return Ok(());
        }
        self.set_up_beneath()
    }

    /// A drr in the first class. Its own first class gets the packets of that priority, and the
    /// others have the next ones.
    fn set_up_beneath(&mut self) -> Result<(), Error> {
        let place = Place::Class(2, 1);
        self.played.tc(&[Ask::Graft(place, 3, New::Drr)])?;
        for (i, &quantum) in self.link.beneath.0.iter().enumerate() {
            self.played.tc(&[Ask::AddClass(3, minor(i), quantum)])?;
            if i == 0 {
                self.played.tc(&[Ask::Match(3, 1, 1)])?;
                continue;
            }
            let prio = prio(self.link.classes.0.len() + i - 1);
            self.played
                .tc(&[Ask::Match(3, minor(i), prio), Ask::Match(2, 1, prio)])?;
        }
        Ok(())
    }

    fn arrive(&mut self, i: usize, len: u16) -> Result<(), Error> {
        self.played.arrive(len, prio(i), self.ns)?;
        self.queued[i] += 1;
        Ok(())
    }

    /// Gives a class packets, so that it never empties.
    fn keep(&mut self, i: usize, len: u16) -> Result<(), Error> {
        while self.queued[i] < DEEP {
            self.arrive(i, len)?;
        }
        Ok(())
    }

    /// What the child of the first class of a drr has given so far, if there is such a drr.
    fn sent(&self, major: u16, classes: &Classes) -> u64 {
        if classes.0.is_empty() {
            return 0;
        }
        self.played.sent(Place::Class(major, 1))
    }

    /// Polls once; whether a packet came.
    fn poll(&mut self) -> Result<bool, Error> {
        match self.played.poll(self.ns)? {
            Polled::Packet(packet) => {
                self.queued[usize::from(packet.prio()) - 1] -= 1;
                self.all += u64::from(packet.len());
                self.waits.extend(self.last.take());
                Ok(true)
            }
            Polled::Later => {
                self.last = Some(Wait {
                    ns: self.ns,
                    all: self.all,
                    class: self.sent(2, &self.link.classes),
                    beneath: self.sent(3, &self.link.beneath),
                });
                Ok(false)
            }
            Polled::Idle => panic!("idle at {}, where a class is backlogged", self.ns),
        }
    }

    /// When the device is ready, which is later than a poll that gave nothing.
    fn ready(&self) -> u64 {
        let ready = self.played.ready().expect("packets are queued");
        assert!(ready > self.ns, "{ready} is not after {}", self.ns);
        ready
    }

    /// Other classes get packets, at a time before the device is ready; and now and then somebody
    /// polls then, or just before it is.
    fn disturb(&mut self, chance: &mut Chance) -> Result<(), Error> {
        let ready = self.ready();
        self.ns += chance.below((ready - self.ns).min(1 << 32));
        for _ in 0..chance.below(4) {
            let i = chance.place(self.queued.len());
            let len = chance.len(self.link.mtu);
            self.arrive(i, len)?;
        }
        match chance.below(4) {
            0 => self.poll_early(self.ns),
            1 => self.poll_early(ready - 1),
            _ => Ok(()),
        }
    }

    /// No packet is given before the device is ready.
    fn poll_early(&mut self, ns: u64) -> Result<(), Error> {
        self.ns = ns;
        assert!(
            !self.poll()?,
            "a packet at {ns}, before the device is ready"
        );
        Ok(())
    }

    /// Polls until no packet comes.
    fn drain(&mut self, chance: &mut Chance) -> Result<(), Error> {
        for _ in 0..1_000 {
            self.keep(0, chance.len(self.link.mtu))?;
            if !self.poll()? {
                return Ok(());
            }
        }
        panic!("no end of packets at {}", self.ns);
    }
}

/// Two classes or more of some quanta.
fn random_classes(chance: &mut Chance, mtu: u16) -> Classes {
    let count = chance.place(MOST - 1) + 2;
    let quanta = (0..count).map(|_| chance.len(mtu).max(mtu / 50).into());
    Classes(quanta.collect())
}

/// A link of some rate, with a burst that has room for a longest packet and for what the rate
/// brings in a nanosecond.
fn random_link(chance: &mut Chance, has_drr_beneath: bool) -> (Link, u32) {
    let rates: [u64; 4] = [1_000, 1_000_000, 1_000_000_000, 100_000_000_000];
    let rate = rates[chance.place(4)];
    let mtu = if chance.hits(2) { 100 } else { 1514 };
    let classes = random_classes(chance, mtu);
    let tokens = rate.div_ceil(8_000_000_000) as u32;
    let burst = u32::from(mtu) + tokens + [0, 1, 1_000][chance.place(3)];
    let beneath = if has_drr_beneath {
        random_classes(chance, mtu)
    } else {
        Classes(Vec::new())
    };
    let link = Link {
        rate,
        mtu,
        classes,
        beneath,
    };
    (link, burst)
}

/// Over how many intervals of random plays the laws held.
fn sweep(has_drr_beneath: bool) -> Result<usize, Error> {
    let mut intervals = 0;
    for seed in 0..40 {
        println!("seed {seed}"); // shown if the play fails
        let mut chance = Chance::new(seed);
        let (link, burst) = random_link(&mut chance, has_drr_beneath);
        let mut drained = Drained::new(link)?;
        drained.set_up(burst)?;
        for _ in 0..40 {
            drained.drain(&mut chance)?;
            drained.disturb(&mut chance)?;
            drained.ns = drained.ready();
        }
        drained.played.assert_played_again()?;
        intervals += drained.link.assert_laws(&drained.waits);
    }
    Ok(intervals)
}

#[test]
fn a_link_keeps_the_laws_of_service() -> Result<(), Error> {
    let intervals = sweep(false)?;
    assert!(intervals >= 5_000, "{intervals}");
    Ok(())
}

#[test]
fn a_drr_beneath_a_drr_keeps_the_laws_of_service() -> Result<(), Error> {
    let intervals = sweep(true)?;
    assert!(intervals >= 5_000, "{intervals}");
    Ok(())
}

/// A packet takes 600 us, and the second one comes 594 us after the first, as the burst has 15
/// bytes more than that has. So 1666 packets follow the first one within a second. Of each three
/// that the drr takes two are the first customer's, and it takes the third and the 1668th, which
/// are the other's, in that time: 1110 packets are the first's, where `share_in_time` promises
/// 1,661,136 bytes.
#[test]
fn two_customers_share_20_mbit_for_a_second() -> Result<(), Error> {
    let mut customers = Drained::new(Link {
        rate: 20_000_000,
        mtu: 1514,
        classes: Classes(vec![3000, 1500]),
        beneath: Classes(Vec::new()),
    })?;
    customers.set_up(1515)?;
    for _ in 0..1_668 {
        // Both customers always have packets of 1500 bytes.
        customers.keep(0, 1500)?;
        customers.keep(1, 1500)?;
        assert!(customers.poll()?, "not ready when it says");
        customers.poll_early(customers.ns)?;
        customers.ns = customers.ready();
    }
    customers.played.assert_played_again()?;
    // The first time at which no packet came, and the one after 1666 packets more.
    let (first, last) = (&customers.waits[0], &customers.waits[1666]);
    assert_eq!((first.ns, last.ns), (0, 999_594_000));
    assert_eq!(last.all - first.all, 1666 * 1500);
    assert_eq!(last.class - first.class, 1110 * 1500);
    assert!(customers.link.delivers(first, last) && customers.link.shares(first, last));
    Ok(())
}
