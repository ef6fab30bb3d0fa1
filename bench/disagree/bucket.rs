//! A token bucket as docs/DISCIPLINES.md has it, in units of which one bit a second brings one a nanosecond.

/// Units in a byte of tokens.
const BYTE: u128 = 8_000_000_000;

pub struct Bucket {
    pub rate: u64,
    burst: u32,
    level: u128,
    last: u64,
}

impl Bucket {
    pub fn new(rate: u64, burst: u32) -> Bucket {
        Bucket {
            rate,
            burst,
            level: u128::from(burst) * BYTE,
            last: 0,
        }
    }

    fn advance(&mut self, now: u64) {
        let gained = u128::from(self.rate) * u128::from(now - self.last);
        self.level = (self.level + gained).min(u128::from(self.burst) * BYTE);
        self.last = now;
    }

    pub fn spend(&mut self, now: u64, len: u16) -> bool {
        self.advance(now);
        let cost = u128::from(len) * BYTE;
        if self.level < cost {
            return false;
        }
        self.level -= cost;
        true
    }

    /// What was gained before counts by the old rate and burst.
    pub fn change(&mut self, now: u64, rate: u64, burst: u32) {
        self.advance(now);
        self.rate = rate;
        self.burst = burst;
        self.level = self.level.min(u128::from(burst) * BYTE);
    }
}
