//! Numbers that look random. Each target of tests has what it uses of it.
#![allow(dead_code)]

/// Numbers that look random, and are the same for the same seed.
pub struct Chance {
    state: u64,
}

impl Chance {
    /// The numbers of a seed.
    pub fn new(seed: u64) -> Chance {
        Chance { state: seed }
    }

    /// The next number, of 64 bits.
    pub fn wide(&mut self) -> u64 {
        let high = self.step();
        let low = self.step();
        high ^ (low >> 32)
    }

    /// The next number below this one, which is 1 to 2^32.
    pub fn below(&mut self, bound: u64) -> u64 {
        (self.step() >> 32) % bound
    }

    /// The same, where the bound is at most 2^32.
    pub fn word(&mut self, bound: u64) -> u32 {
        self.below(bound) as u32
    }

    /// The same, where the bound is at most 2^16.
    pub fn short(&mut self, bound: u64) -> u16 {
        self.below(bound) as u16
    }

    /// The same, where the bound is at most 2^8.
    pub fn byte(&mut self, bound: u64) -> u8 {
        self.below(bound) as u8
    }

    /// The next number from 1 to this one.
    pub fn upto(&mut self, most: u64) -> u64 {
        self.below(most) + 1
    }

    /// The next place of a list of so many.
    pub fn place(&mut self, count: usize) -> usize {
        self.below(count as u64) as usize
    }

    /// A length of 1 to so many bytes, often the least or the most.
    pub fn len(&mut self, most: u16) -> u16 {
        match self.below(3) {
            0 => 1,
            1 => most,
            _ => self.short(most.into()) + 1,
        }
    }

    /// Whether one of so many comes up.
    pub fn hits(&mut self, of: u64) -> bool {
        self.below(of) == 0
    }

    /// A number below this one, or none: each as often as the other.
    pub fn some_word(&mut self, bound: u64) -> Option<u32> {
        (!self.hits(2)).then(|| self.word(bound))
    }

    fn step(&mut self) -> u64 {
        let product = self.state.wrapping_mul(6_364_136_223_846_793_005);
        self.state = product.wrapping_add(1_442_695_040_888_963_407);
        self.state
    }
}
