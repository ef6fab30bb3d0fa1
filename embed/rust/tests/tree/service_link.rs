//! A link that classes of a drr share, and what the laws of service promise of it between two times
//! at which no packet came.
use crate::service_laws::lacks_of_bytes;

/// The units of a level in a byte.
const UNITS: u128 = 8_000_000_000;

/// The quanta of the classes of a drr, of which the first is backlogged. No classes are no drr.
#[derive(Clone, Debug)]
pub struct Classes(pub Vec<u32>);

impl Classes {
    /// The quantum of the backlogged class.
    fn quantum(&self) -> u128 {
        self.0[0].into()
    }

    fn sum(&self) -> u128 {
        self.0.iter().copied().map(u128::from).sum()
    }

    /// What the backlogged class may lack of its part of all that the classes send, times the sum
    /// of their quanta.
    fn lacks(&self, mtu: u16) -> u128 {
        let (quantum, quanta) = (self.quantum() as i64, self.sum() as i64);
        lacks_of_bytes(self.0.len() as i64, quantum, quanta, mtu.into()) as u128
    }
}

/// A time at which no packet came: how many bytes had been given, how many the child of the
/// backlogged class had given to the drr, and how many that of the backlogged class below it.
#[derive(Clone, Copy, Debug)]
pub struct Wait {
    pub ns: u64,
    pub all: u64,
    pub class: u64,
    pub beneath: u64,
}

/// A rate, who shares it, and who shares the part of the first of those, if there is a drr below.
#[derive(Clone, Debug)]
pub struct Link {
    pub rate: u64,
    pub mtu: u16,
    pub classes: Classes,
    pub beneath: Classes,
}

impl Link {
    /// What the rate brings from one time to another.
    fn brings(&self, from: &Wait, to: &Wait) -> u128 {
        u128::from(self.rate) * u128::from(to.ns - from.ns)
    }

    /// Whether the tbf keeps within a longest packet of its rate.
    pub fn delivers(&self, from: &Wait, to: &Wait) -> bool {
        let brings = self.brings(from, to);
        let paid = u128::from(to.all - from.all) * UNITS;
        let mtu = u128::from(self.mtu) * UNITS;
        brings < paid + mtu && paid < brings + mtu
    }

    /// A part of two longest packets of the link.
    fn packets(&self, quanta: u128) -> u128 {
        2 * u128::from(self.mtu) * quanta
    }

    /// Whether the backlogged class gets its part of the rate.
    pub fn shares(&self, from: &Wait, to: &Wait) -> bool {
        let quantum = self.classes.quantum();
        let part = self.brings(from, to) * quantum;
        let sent = u128::from(to.class - from.class) * self.classes.sum();
        part < (sent + self.packets(quantum) + self.classes.lacks(self.mtu)) * UNITS
    }

    /// What the backlogged class below may lack of its part of the rate, times the sums of both
    /// drrs' quanta: what each level lacks, and a longest packet that the drr below holds.
    fn lacks_beneath(&self) -> u128 {
        let (quantum, sum) = (self.beneath.quantum(), self.classes.sum());
        let above = (self.classes.lacks(self.mtu) + u128::from(self.mtu) * sum) * quantum;
        let own = sum * self.beneath.lacks(self.mtu);
        self.packets(self.classes.quantum() * quantum) + above + own
    }

    /// Whether the backlogged class below gets its part of that part, if there is a drr below.
    pub fn shares_beneath(&self, from: &Wait, to: &Wait) -> bool {
        if self.beneath.0.is_empty() {
            return true;
        }
        let quanta = self.classes.quantum() * self.beneath.quantum();
        let part = self.brings(from, to) * quanta;
        let sums = self.classes.sum() * self.beneath.sum();
        let sent = u128::from(to.beneath - from.beneath) * sums;
        part < (sent + self.lacks_beneath()) * UNITS
    }

    /// The laws hold over each interval between these times; how many that are.
    pub fn assert_laws(&self, waits: &[Wait]) -> usize {
        let mut intervals = 0;
        for (nth, from) in waits.iter().enumerate() {
            for to in &waits[nth..] {
                let kept = [
                    self.delivers(from, to),
                    self.shares(from, to),
                    self.shares_beneath(from, to),
                ];
                assert_eq!(kept, [true; 3], "{from:?} to {to:?} of {self:?}");
                intervals += 1;
            }
        }
        intervals
    }
}
