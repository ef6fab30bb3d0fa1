//! Random plays of a tree without a tbf: a poll gives a packet wherever one is queued, and none of
//! a band while one is queued in an earlier one.
use crate::chance::Chance;
use crate::device_bench::Ask;
use crate::lines::New;
use crate::played::Played;
use qtree::{Error, Place, Polled};

/// How many events a play has behind its commands.
const STEPS: u64 = 200;

const LINES: &[Ask] = &[
    Ask::Graft(Place::Root, 1, New::Prio(4)),
    Ask::Graft(Place::Class(1, 1), 2, New::Packets(1000)),
    Ask::Graft(Place::Class(1, 2), 3, New::Drr),
    Ask::AddClass(3, 1, 100),
    Ask::Match(3, 1, 1),
    Ask::Graft(Place::Class(3, 1), 4, New::Fair(300)),
    Ask::Graft(Place::Class(1, 3), 5, New::Fair(1514)),
    Ask::Graft(Place::Class(1, 4), 6, New::Bfifo(1_000_000)),
];

/// A device in a random play, how many packets are queued in each of its four bands, and how many
/// polls gave one or found none.
struct Play {
    played: Played,
    chance: Chance,
    bands: [u64; 4],
    gave: u64,
    idle: u64,
}

impl Play {
    fn new(seed: u64) -> Result<Play, Error> {
        let mut played = Played::new(1514)?;
        played.tc(LINES)?;
        Ok(Play {
            played,
            chance: Chance::new(seed),
            bands: [0; 4],
            gave: 0,
            idle: 0,
        })
    }

    fn arrive(&mut self, ns: u64) -> Result<(), Error> {
        let prio = self.chance.below(4) as u8;
        self.played.arrive(self.chance.len(1514), prio, ns)?;
        self.bands[usize::from(prio)] += 1;
        Ok(())
    }

    /// A poll is never answered later, idle where nothing is queued, and else a packet of the first
    /// band that has one. What is lost is lost beside the packet that is given.
    fn poll(&mut self, ns: u64) -> Result<(), Error> {
        let first = self.bands.iter().position(|&queued| queued > 0);
        let polled = self.played.poll(ns)?;
        match polled {
            Polled::Packet(packet) => {
                let band = usize::from(packet.prio());
                assert_eq!(Some(band), first, "{polled:?} at {ns}");
                self.bands[band] -= 1;
                self.gave += 1;
            }
            Polled::Idle => {
                assert_eq!(first, None, "idle at {ns}");
                self.idle += 1;
            }
            Polled::Later => panic!("later at {ns}"),
        }
        for prio in self.played.reap() {
            self.bands[usize::from(prio)] -= 1;
        }
        Ok(())
    }

    /// Times of many arrivals and times of many polls.
    fn run(&mut self) -> Result<(), Error> {
        let mut ns = 0;
        for step in 0..STEPS {
            ns += self.chance.below(5_000_000);
            let arrivals = if step % 100 < 50 { 3 } else { 1 };
            if self.chance.below(4) < arrivals {
                self.arrive(ns)?;
            } else {
                self.poll(ns)?;
            }
        }
        self.played.assert_played_again()
    }
}

#[test]
fn no_link_idles_and_bands_go_in_order() -> Result<(), Error> {
    let (mut gave, mut idle) = (0, 0);
    for seed in 0..40 {
        println!("seed {seed}"); // shown if the play fails
        let mut play = Play::new(seed)?;
        play.run()?;
        gave += play.gave;
        idle += play.idle;
    }
    assert!(gave >= 2_000 && idle >= 100, "{gave} {idle}");
    Ok(())
}
