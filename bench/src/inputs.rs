//! The inputs of the workloads, the same in every run.

use crate::plain::gap::gap;

/// Bytes of a head's place in a table; the last one is the head's length.
pub const SLOT: usize = 64;

/// Marsaglia's xorshift, with 64 bits of state.
pub struct Xorshift(u64);

impl Xorshift {
    pub fn new() -> Xorshift {
        Xorshift(0x9e37_79b9_7f4a_7c15)
    }

    pub fn next(&mut self) -> u64 {
        self.0 ^= self.0 << 13;
        self.0 ^= self.0 >> 7;
        self.0 ^= self.0 << 17;
        self.0
    }

    /// A number below `end`.
    pub fn below(&mut self, end: u64) -> u64 {
        self.next() % end
    }
}

/// A table of heads: half IPv4 and half IPv6, in a random order, of TCP, UDP, SCTP and ICMP; one in sixteen IPv4 heads is a
/// later fragment, and one in sixteen has options.
pub fn heads(count: usize) -> Vec<u8> {
    let mut random = Xorshift::new();
    let mut table = Vec::with_capacity(count * SLOT);
    for _ in 0..count {
        let mut slot = [0; SLOT];
        for byte in &mut slot {
            *byte = random.next() as u8;
        }
        let proto = [6, 6, 6, 6, 17, 17, 132, 1][random.below(8) as usize];
        if random.below(2) == 0 {
            let options = random.below(16) == 0;
            slot[0] = if options { 0x46 } else { 0x45 };
            let fragment = random.below(16) == 0;
            (slot[6], slot[7]) = if fragment { (0, 9) } else { (0x40, 0) };
            slot[9] = proto;
            slot[SLOT - 1] = if options { 44 } else { 40 };
        } else {
            slot[0] = 0x60 | slot[0] & 0x0f;
            slot[6] = proto;
            slot[SLOT - 1] = 60;
        }
        table.extend(slot);
    }
    table
}

/// Lengths of packets, in bytes: small and full ones, as in most traffic.
pub fn lens(count: usize) -> Vec<u16> {
    let mut random = Xorshift::new();
    (0..count)
        .map(|_| match random.below(4) {
            0 => 1514,
            1 => 60 + random.below(40) as u16,
            _ => 60 + random.below(1454) as u16,
        })
        .collect()
}

/// Hashes of packets.
pub fn hashes(count: usize) -> Vec<u32> {
    let mut random = Xorshift::new();
    (0..count).map(|_| (random.next() >> 20) as u32).collect()
}

/// Times 10 us apart, in nanoseconds.
pub fn even_moments(count: usize) -> Vec<u64> {
    (1..=count as u64).map(|step| step * 10_000).collect()
}

/// The times at which a queue that never empties loses exactly one packet each, once CoDel has begun to drop.
pub fn drop_moments(count: usize, interval: u64) -> Vec<u64> {
    let mut now = 10_000_000;
    let mut moments = vec![now];
    now += interval;
    for drops in 1..count as u32 {
        moments.push(now);
        now += gap(interval, drops);
    }
    moments
}

/// Packets for a bucket: of each its length, in the low 16 bits, and above them the nanoseconds since the one before.
///
/// Of the bytes that the packets have, the rate brings so many hundredths between them. One wait in 16, and the first, fills
/// the bucket too. No packet is nearer to what the bucket holds than the rate brings in a nanosecond for each packet since
/// it was full, so that an arithmetic that rounds to nanoseconds gives the same answers.
pub fn spends(rate: u64, burst: u32, brought: u64, count: usize) -> Vec<u64> {
    const UNIT: u64 = 8_000_000_000;
    let mut random = Xorshift::new();
    let full = u64::from(burst) * UNIT;
    let mean = 787 * UNIT / rate * brought / 100;
    let mut spends = Vec::new();
    let (mut level, mut waited, mut since_full) = (full, 0, 0);
    while spends.len() < count {
        let is_long = spends.is_empty() || random.below(16) == 0;
        let wait = random.below(2 * mean) + if is_long { full / rate } else { 0 } + 1;
        let len = 60 + random.below(1454);
        let here = full.min(level + rate * (waited + wait));
        let cost = len * UNIT;
        since_full = if here == full { 0 } else { since_full + 1 };
        if here.abs_diff(cost) <= (since_full + 1) * rate {
            continue;
        }
        spends.push(wait << 16 | len);
        waited += wait;
        if here >= cost {
            level = here - cost;
            waited = 0;
        }
    }
    spends
}

/// Lines without newlines, and where each ends.
#[derive(Clone)]
pub struct Lines {
    pub text: Vec<u8>,
    pub ends: Vec<u32>,
}

impl Lines {
    pub fn of(lines: &[String]) -> Lines {
        let mut text = Vec::new();
        let mut ends = Vec::new();
        for line in lines {
            text.extend(line.bytes());
            ends.push(text.len() as u32);
        }
        Lines { text, ends }
    }
}

/// So many lines of one kind.
pub fn lines(count: usize, mut line: impl FnMut(&mut Xorshift) -> String) -> Lines {
    let mut random = Xorshift::new();
    let lines: Vec<String> = (0..count).map(|_| line(&mut random)).collect();
    Lines::of(&lines)
}

/// Packets that arrive at a device: of each its hash, its priority and its port of destination, and whether they can be
/// marked.
#[derive(Clone)]
pub struct Plan {
    pub hashes: Vec<u32>,
    pub prios: Vec<u8>,
    pub ports: Vec<u16>,
    pub ecn: bool,
}

/// The first port of destination.
pub const FIRST_PORT: u16 = 5000;

/// The packets of one pass, which all are made before.
pub const PACKETS: u32 = 8192;

/// Packets of each flow in turn, or of so many that lie evenly among them, with a random priority and a random port of eight.
pub fn plan(flows: u32, ecn: bool) -> Plan {
    let mut random = Xorshift::new();
    let mut random = |end| (random.next() >> 20) % end;
    let apart = (flows / PACKETS).max(1);
    Plan {
        hashes: (0..PACKETS).map(|number| number * apart % flows).collect(),
        prios: (0..PACKETS).map(|_| random(16) as u8).collect(),
        ports: (0..PACKETS).map(|_| FIRST_PORT + random(8) as u16).collect(),
        ecn,
    }
}

/// Packets of flows at random: as many as there are flows, and at least as many as in [`plan`].
pub fn random_plan(flows: u32) -> Plan {
    let mut random = Xorshift::new();
    let count = flows.max(PACKETS) as usize;
    Plan {
        hashes: (0..count).map(|_| (random.next() >> 20) as u32 % flows).collect(),
        prios: vec![0; count],
        ports: vec![FIRST_PORT; count],
        ecn: false,
    }
}

/// Packets to so many pipes in turn, all of the last traffic class.
pub fn pipes(count: u16) -> Plan {
    Plan {
        hashes: vec![0; PACKETS as usize],
        prios: vec![12; PACKETS as usize],
        ports: (0..PACKETS).map(|number| FIRST_PORT + number as u16 % count).collect(),
        ecn: false,
    }
}

/// The nanoseconds from poll to poll at which one flow that never empties loses exactly one packet each, once CoDel has begun to drop.
pub fn drop_waits(count: usize, interval: u64) -> Vec<u32> {
    let moments = drop_moments(count, interval);
    let first = moments[0] as u32;
    let waits = moments.windows(2).map(|pair| (pair[1] - pair[0]) as u32);
    std::iter::once(first).chain(waits).collect()
}
