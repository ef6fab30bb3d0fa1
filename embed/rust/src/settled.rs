use crate::count::Count;

/// What a drain took in from its rings until it settled.
#[derive(Clone, Copy, Debug, PartialEq, Eq)]
#[non_exhaustive]
pub struct Settled {
    /// What all ports placed together.
    pub placed: Count,
    /// What was taken in from all rings together.
    pub taken: Count,
    /// Whether exactly what its port placed was taken in from each ring.
    pub adds_up: bool,
}

impl Settled {
    /// Adds what the port of a ring placed, and what was taken in from this ring.
    pub(crate) fn add(&mut self, placed: Count, taken: Count) {
        self.placed += placed;
        self.taken += taken;
        self.adds_up &= placed == taken;
    }
}

#[cfg(test)]
mod tests {
    use super::{Count, Settled};

    /// One ring that does not add up is enough, wherever it stands, and though the sums of all are equal.
    #[test]
    fn each_ring_has_to_add_up() {
        let count = |packets| Count {
            packets,
            bytes: 100 * packets,
        };
        for (rings, adds_up) in [
            ([(3, 3), (4, 4), (5, 5)], true),
            ([(4, 3), (3, 4), (5, 5)], false),
            ([(3, 3), (5, 4), (4, 5)], false),
        ] {
            let mut settled = Settled {
                placed: Count::default(),
                taken: Count::default(),
                adds_up: true,
            };
            for (placed, taken) in rings {
                settled.add(count(placed), count(taken));
            }
            assert_eq!((settled.placed, settled.taken), (count(12), count(12)));
            assert_eq!(settled.adds_up, adds_up);
        }
    }
}
