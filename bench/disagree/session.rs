//! Scripts made from nothing: commands, packets, polls and times of one device, with a guess at which qdiscs it has.

use super::random::Random;
use super::requests::mixed;
use super::values;

/// A qdisc that is probably there.
pub struct Guess {
    pub handle: u64,
    pub kind: &'static str,
    /// The class that it is in, none at the root.
    pub place: Option<(u64, u64)>,
    pub classes: Vec<u64>,
}

pub struct Session {
    pub random: Random,
    pub guesses: Vec<Guess>,
    mtu: u64,
    now: u64,
    /// About how many nanoseconds pass between two `at` lines.
    pace: u64,
    /// Of 100 lines, how many are commands.
    commands: u64,
    /// How many hashes and ports packets have.
    flows: u64,
}

impl Session {
    pub fn new(mut random: Random, mtu: u64) -> Session {
        let pace = random.number(&[1_000, 100_000, 2_000_000, 10_000_000, 50_000_000, 1_000_000_000]);
        let commands = random.number(&[2, 5, 10, 20, 60]);
        let flows = random.number(&[1, 2, 3, 5]);
        Session {
            random,
            guesses: Vec::new(),
            mtu,
            now: 0,
            pace,
            commands,
            flows,
        }
    }

    /// A line, or a burst of packets or polls.
    pub fn lines(&mut self) -> Vec<String> {
        let count = 2 + self.random.below(30);
        match self.random.below(100) {
            0..8 => (0..count).map(|_| self.packet()).collect(),
            8..14 => self.wait(count),
            _ => vec![self.line()],
        }
    }

    /// Polls at several times.
    fn wait(&mut self, count: u64) -> Vec<String> {
        (0..count).flat_map(|_| [self.moment(), "poll".into()]).collect()
    }

    pub fn line(&mut self) -> String {
        if self.random.chance(self.commands) {
            return self.command();
        }
        match self.random.below(100) {
            0..52 => self.packet(),
            52..75 => match self.random.below(60) {
                0 => format!("poll {}", self.random.number(&[100, 1000])),
                1..20 => format!("poll {}", 1 + self.random.below(9)),
                _ => "poll".into(),
            },
            75..92 => self.moment(),
            92..95 => "reap".into(),
            95 => "totals".into(),
            _ => self.show(),
        }
    }

    fn show(&mut self) -> String {
        let counters = if self.random.chance(60) { " -s" } else { "" };
        let object = self.random.pick(&["qdisc", "qdisc", "class", "filter"]);
        let verb = self.random.pick(&["show", "list", "ls"]);
        let device = if self.random.chance(30) { " dev eth0" } else { "" };
        format!("tc{counters} {object} {verb}{device}")
    }

    fn moment(&mut self) -> String {
        let latest = 1 << 62;
        self.now = match self.random.below(100) {
            0..85 => self.now + self.random.below(2 * self.pace),
            85..92 => self.now + self.random.below(100 * self.pace),
            92..97 => self.now.saturating_sub(self.random.below(3 * self.pace)),
            97 => self.now + self.random.below(latest),
            98 if self.random.chance(20) => latest,
            _ => self.now + 1,
        };
        self.now = self.now.min(latest);
        format!("at {}", self.now)
    }

    fn packet(&mut self) -> String {
        let (flows, mtu) = (self.flows, self.mtu);
        let random = &mut self.random;
        let mut len = values::len(random);
        if len > mtu && random.chance(85) {
            len = 1 + random.below(mtu);
        }
        if random.chance(20) {
            return format!("frame {len} {}", values::head(random));
        }
        let mut options = Vec::new();
        if random.chance(60) {
            options.push(format!("hash {}", random.below(flows)));
        }
        if random.chance(35) {
            options.push(format!("prio {}", random.below(16)));
        }
        if random.chance(60) {
            options.push(format!("src_port {}", 1 + random.below(flows)));
        }
        if random.chance(15) {
            options.push(format!("dst_port {}", values::port(random)));
        }
        if random.chance(25) {
            options.push(format!("src_ip {}", values::address(random)));
        }
        if random.chance(10) {
            options.push(format!("dst_ip {}", values::address(random)));
        }
        if random.chance(15) {
            options.push(format!("ip_proto {}", values::proto(random)));
        }
        if random.chance(25) {
            options.push(format!("ecn {}", random.below(4)));
        }
        format!("pkt {len}{}", mixed(random, options))
    }
}
