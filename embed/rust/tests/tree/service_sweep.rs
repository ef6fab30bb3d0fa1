//! Random plays of a drr and of an fq_codel in which one class or flow always has packets, while
//! the others come and go as they like: after every event each law of service is asked, over the
//! interval from some event to that one. The rounds are worked out apart, and every poll has to
//! give the packet of the class or flow whose turn it is.
use crate::chance::Chance;
use crate::device_bench::Ask;
use crate::lines::New;
use crate::played::Played;
use crate::rounds::{List, MOST, Rounds};
use crate::service_laws::{
    Span, class_against_any, flow_against_any, least_share, new_flow_first, no_flow_starves,
};
use qtree::{Error, Place, Polled};

// How many steps a play has: before one has packets all the time, and then.
const PAST: u64 = 20;

const STEPS: u64 = 100;

/// A device in the middle of a random play.
struct Play {
    played: Played,
    chance: Chance,
    rounds: Rounds,
    quanta: Vec<u32>,
    has_flows: bool,
    mtu: u16,
}

/// Over which intervals the laws are asked: from `first` on, from before a grant to the backlogged
/// one on, and since one joined.
struct Watch {
    backlogged: usize,
    first: Rounds,
    since: Rounds,
    joined: Option<(usize, Rounds)>,
}

/// The minor number of a class, and the priority of its packets or of a flow's: both count from 1.
fn minor(i: usize) -> u16 {
    i as u16 + 1
}

fn prio(i: usize) -> u8 {
    i as u8 + 1
}

/// The handle of the pfifo in a class.
fn handle(i: usize) -> u16 {
    minor(i) + 10
}

/// A quantum that needs at most some hundred grants for a longest packet.
fn random_quantum(chance: &mut Chance, mtu: u16) -> u32 {
    let least = u32::from(mtu / 100).max(1);
    match chance.below(4) {
        0 => least,
        1 => mtu.into(),
        2 => least + 1,
        _ => (chance.below(u64::from(mtu) * 3) as u32).max(least),
    }
}

/// The quanta of so many classes, or of so many flows, which all have the same.
fn random_quanta(chance: &mut Chance, has_flows: bool, count: usize, mtu: u16) -> Vec<u32> {
    let one = random_quantum(chance, mtu);
    let mut quanta = vec![one; count];
    if !has_flows {
        quanta.fill_with(|| random_quantum(chance, mtu));
    }
    quanta
}

impl Play {
    fn new(seed: u64, has_flows: bool) -> Result<Play, Error> {
        let mut chance = Chance::new(seed);
        let mtu = [2, 100, 1514][chance.place(3)];
        let count = chance.place(MOST - 1) + 2;
        let quanta = random_quanta(&mut chance, has_flows, count, mtu);
        Ok(Play {
            played: Played::new(mtu)?,
            chance,
            rounds: Rounds::new(has_flows, &quanta),
            quanta,
            has_flows,
            mtu,
        })
    }

    fn count(&self) -> usize {
        self.quanta.len()
    }

    fn set_up(&mut self) -> Result<(), Error> {
        if self.has_flows {
            let fair = New::Fair(self.quanta[0]);
            return self.played.tc(&[Ask::Graft(Place::Root, 1, fair)]);
        }
        self.played.tc(&[Ask::Graft(Place::Root, 1, New::Drr)])?;
        for i in 0..self.count() {
            self.played.tc(&[
                Ask::AddClass(1, minor(i), self.quanta[i]),
                Ask::Match(1, minor(i), prio(i)),
            ])?;
            self.graft(i)?;
        }
        Ok(())
    }

    /// Puts a pfifo into a class.
    fn graft(&mut self, i: usize) -> Result<(), Error> {
        let place = Place::Class(1, minor(i));
        let pfifo = New::Packets(10_000);
        self.played.tc(&[Ask::Graft(place, handle(i), pfifo)])
    }

    /// Removes it with its packets, and puts in another one.
    fn replace(&mut self, i: usize) -> Result<(), Error> {
        self.played.tc(&[Ask::Prune(handle(i))])?;
        self.rounds.sleeps(i);
        self.graft(i)
    }

    fn arrive(&mut self, i: usize, len: u16) -> Result<(), Error> {
        self.played.arrive(len, prio(i), 0)?;
        self.rounds.arrives(i);
        Ok(())
    }

    /// Some length, or one less than the quantum.
    fn len(&mut self, i: usize) -> u16 {
        if self.chance.hits(4) {
            let near = self.quanta[i] - 1;
            return near.clamp(1, self.mtu.into()) as u16;
        }
        self.chance.len(self.mtu)
    }

    /// The packet that is given is that of the class or flow whose turn it is.
    fn poll(&mut self) -> Result<(), Error> {
        let polled = self.played.poll(0)?;
        let given = match polled {
            Polled::Packet(packet) => Some((usize::from(packet.prio()) - 1, packet.len().into())),
            Polled::Idle => None,
            Polled::Later => panic!("later, without a tbf"),
        };
        assert!(self.rounds.polled(given), "not the turn of {polled:?}");
        Ok(())
    }

    fn past(&mut self) -> Result<(), Error> {
        for _ in 0..PAST {
            if self.chance.hits(2) {
                let i = self.chance.place(self.count());
                let len = self.len(i);
                self.arrive(i, len)?;
            } else {
                self.poll()?;
            }
        }
        Ok(())
    }

    /// Gives a class or flow packets, so that it never empties.
    fn keep(&mut self, i: usize) -> Result<(), Error> {
        while self.rounds.members[i].queued < 2 {
            let len = self.len(i);
            self.arrive(i, len)?;
        }
        Ok(())
    }

    /// What somebody does who wants to get most beside one that is backlogged: now and then it
    /// joins and sends a quantum, and when it is visited again it leaves a byte of what it has.
    fn push(&mut self, j: usize) -> Result<(), Error> {
        let member = self.rounds.members[j];
        if member.queued > 0 {
            return Ok(());
        }
        let mut left = match member.list {
            List::Nowhere => member.quantum,
            _ => member.left - 1,
        };
        for _ in 0..4 {
            if left <= 0 {
                return Ok(());
            }
            let len = left.min(self.mtu.into());
            self.arrive(j, len as u16)?;
            left -= len;
        }
        Ok(())
    }

    /// One event or more of others than the backlogged one.
    fn disturb(&mut self, watch: &mut Watch) -> Result<(), Error> {
        let j = self.chance.place(self.count());
        if j == watch.backlogged {
            return Ok(());
        }
        if !self.has_flows && self.chance.hits(16) {
            return self.replace(j);
        }
        watch.join(&self.rounds, j);
        if self.chance.hits(3) {
            let len = self.len(j);
            return self.arrive(j, len);
        }
        self.push(j)
    }

    /// A play in which one is backlogged; how many intervals the laws held over.
    fn run(&mut self) -> Result<u64, Error> {
        self.set_up()?;
        self.past()?;
        let backlogged = self.chance.place(self.count());
        self.keep(backlogged)?;
        let mut watch = Watch::new(backlogged, &self.rounds);
        let mut intervals = 0;
        for _ in 0..STEPS {
            intervals += self.step(&mut watch)?;
        }
        Ok(intervals)
    }

    fn step(&mut self, watch: &mut Watch) -> Result<u64, Error> {
        self.keep(watch.backlogged)?;
        self.disturb(watch)?;
        if self.chance.hits(3) {
            return Ok(0);
        }
        let before = self.rounds.clone();
        self.poll()?;
        watch.polled(before, &self.rounds);
        self.assert_laws(watch);
        if self.chance.hits(32) {
            *watch = Watch::new(watch.backlogged, &self.rounds);
        }
        Ok(1)
    }

    /// Every law holds over the intervals that end here.
    fn assert_laws(&self, watch: &Watch) {
        let (i, mtu) = (watch.backlogged, self.mtu.into());
        let one = Span::of(&watch.first, &self.rounds, i);
        for j in (0..self.count()).filter(|&j| j != i) {
            let other = Span::of(&watch.first, &self.rounds, j);
            if self.has_flows {
                let since = Span::of(&watch.since, &self.rounds, j);
                assert!(flow_against_any(&one, &other, mtu), "{j} against {i}");
                assert!(no_flow_starves(&since, mtu), "{j} starves {i}");
            } else {
                assert!(class_against_any(&one, &other, mtu), "{j} against {i}");
            }
        }
        if self.has_flows {
            self.assert_waiting(watch);
        } else {
            let has_share = least_share(&watch.first, &self.rounds, i, mtu);
            assert!(has_share, "the least share of {i}");
        }
    }

    /// Nobody gave too much since somebody joined who has given nothing.
    fn assert_waiting(&self, watch: &Watch) {
        let Some((joined, first)) = &watch.joined else {
            return;
        };
        for k in (0..self.count()).filter(|k| k != joined) {
            let span = Span::of(first, &self.rounds, k);
            let waits = new_flow_first(&span, self.mtu.into());
            assert!(waits, "{k} before {joined}, which is new");
        }
    }
}

impl Watch {
    fn new(backlogged: usize, rounds: &Rounds) -> Watch {
        Watch {
            backlogged,
            first: rounds.clone(),
            since: rounds.clone(),
            joined: None,
        }
    }

    /// Somebody may join now.
    fn join(&mut self, rounds: &Rounds, j: usize) {
        if self.joined.is_none() && rounds.members[j].list == List::Nowhere {
            self.joined = Some((j, rounds.clone()));
        }
    }

    /// A poll was answered.
    fn polled(&mut self, before: Rounds, after: &Rounds) {
        let i = self.backlogged;
        if before.members[i].grants != after.members[i].grants {
            self.since = before;
        }
        self.joined
            .take_if(|(j, first)| after.members[*j].given != first.members[*j].given);
    }
}

/// Over how many intervals of random plays the laws held.
fn sweep(has_flows: bool) -> Result<u64, Error> {
    let mut intervals = 0;
    for seed in 0..60 {
        println!("seed {seed}"); // shown if the play fails
        let mut play = Play::new(seed, has_flows)?;
        intervals += play.run()?;
        play.played.assert_played_again()?;
    }
    Ok(intervals)
}

#[test]
fn classes_keep_the_laws_of_service() -> Result<(), Error> {
    let intervals = sweep(false)?;
    assert!(intervals >= 2_000, "{intervals}");
    Ok(())
}

#[test]
fn flows_keep_the_laws_of_service() -> Result<(), Error> {
    let intervals = sweep(true)?;
    assert!(intervals >= 2_000, "{intervals}");
    Ok(())
}
