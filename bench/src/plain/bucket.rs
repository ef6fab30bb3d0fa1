//! A token bucket as Linux's `sch_tbf` keeps it: tokens are nanoseconds, and the time of a packet is found by one
//! multiplication and one shift, which round.

/// Nanoseconds for so many bytes at a rate, as a fraction with a power of two below.
struct Rate {
    mult: u64,
    shift: u32,
}

impl Rate {
    fn new(bytes_a_second: u64) -> Rate {
        let mut factor: u64 = 1_000_000_000;
        let mut shift = 0;
        loop {
            let mult = factor / bytes_a_second;
            if mult & 1 << 31 != 0 || factor & 1 << 63 != 0 {
                return Rate { mult, shift };
            }
            factor <<= 1;
            shift += 1;
        }
    }

    fn ns(&self, len: u32) -> i64 {
        (u64::from(len) * self.mult >> self.shift) as i64
    }
}

pub struct Bucket {
    rate: Rate,
    buffer: i64,
    tokens: i64,
    last: i64,
}

impl Bucket {
    pub fn new(bits_a_second: u64, burst: u32) -> Bucket {
        let rate = Rate::new(bits_a_second / 8);
        let buffer = rate.ns(burst);
        Bucket {
            rate,
            buffer,
            tokens: buffer,
            last: 0,
        }
    }

    pub fn spend(&mut self, now: u64, len: u16) -> bool {
        let now = now as i64;
        let gained = (now - self.last).min(self.buffer);
        let tokens = (self.tokens + gained).min(self.buffer) - self.rate.ns(len.into());
        if tokens < 0 {
            return false;
        }
        self.tokens = tokens;
        self.last = now;
        true
    }
}
