use crate::count::Count;
use crate::row::Row;
use core::hint;
use core::sync::atomic::{AtomicU64, Ordering, fence};

/// The last row that a drain published, as its twelve numbers. No lock guards them: a reader whose
/// read overlaps a change reads again. The version is odd while the numbers change.
#[derive(Debug, Default)]
pub(crate) struct Board {
    version: AtomicU64,
    numbers: [AtomicU64; 12],
}

impl Board {
    /// Publishes a row. There is one publisher, and it waits for no thread.
    pub(crate) fn publish(&self, row: &Row) {
        let version = self.version.load(Ordering::Relaxed);
        self.version.store(version + 1, Ordering::Relaxed);
        // A reader that sees one of the new numbers also sees an odd version, or a later one.
        fence(Ordering::Release);
        for (place, number) in self.numbers.iter().zip(numbers_of(row)) {
            place.store(number, Ordering::Relaxed);
        }
        self.version.store(version + 2, Ordering::Release);
    }

    /// The last row that was published.
    pub(crate) fn read(&self) -> Row {
        loop {
            let version = self.version.load(Ordering::Acquire);
            let numbers = self.numbers.each_ref().map(|it| it.load(Ordering::Relaxed));
            fence(Ordering::Acquire);
            if version % 2 == 0 && self.version.load(Ordering::Relaxed) == version {
                return row_of(numbers);
            }
            hint::spin_loop();
        }
    }
}

fn numbers_of(row: &Row) -> [u64; 12] {
    let Row {
        arrived: a,
        sent: s,
        refused: r,
        dropped: d,
        queued: q,
        marked: m,
    } = row;
    [
        a.packets, a.bytes, s.packets, s.bytes, r.packets, r.bytes, d.packets, d.bytes, q.packets,
        q.bytes, m.packets, m.bytes,
    ]
}

fn row_of(numbers: [u64; 12]) -> Row {
    let count = |at: usize| Count {
        packets: numbers[at],
        bytes: numbers[at + 1],
    };
    Row {
        arrived: count(0),
        sent: count(2),
        refused: count(4),
        dropped: count(6),
        queued: count(8),
        marked: count(10),
    }
}

#[cfg(test)]
mod tests {
    extern crate std;
    use super::*;

    #[test]
    fn a_row_is_read_as_it_was_published() {
        let board = Board::default();
        assert_eq!(board.read(), Row::default());
        let row = row_of([1, 2, 3, 4, 5, 6, 7, 8, 9, 10, 11, 12]);
        board.publish(&row);
        assert_eq!((board.read(), row.arrived.packets), (row, 1));
        assert_eq!((row.sent.bytes, row.refused.packets), (4, 5));
        assert_eq!((row.dropped.bytes, row.queued.packets), (8, 9));
        assert_eq!((row.marked.packets, row.marked.bytes), (11, 12));
    }

    #[test]
    fn no_row_is_read_in_parts() {
        let board = Board::default();
        std::thread::scope(|scope| {
            scope.spawn(|| (0..=100_000).for_each(|it| board.publish(&row_of([it; 12]))));
            let mut last = 0;
            while last < 100_000 {
                let numbers = numbers_of(&board.read());
                assert_eq!(numbers, [numbers[0]; 12]);
                assert!(numbers[0] >= last);
                last = numbers[0];
            }
        });
    }
}
