use crate::board::Board;
use crate::row::Row;
use alloc::sync::Arc;

/// Reads the counters of a drain's device, on any thread, while the drain goes on.
///
/// ```
/// use qtree::{Drain, Packet, Settings};
///
/// let (mut drain, mut ports) = Drain::open(Settings::default(), 1, 16)?;
/// let gauge = drain.gauge();
/// ports[0].offer(&Packet::builder(100).build()?)?;
/// drain.turn(0, 8, &mut Vec::new())?;
/// let row = std::thread::spawn(move || gauge.read()).join().expect("a reader does not panic");
/// assert_eq!((row.arrived.packets, row.sent.bytes), (1, 100));
/// # Ok::<(), Box<dyn std::error::Error>>(())
/// ```
#[derive(Clone, Debug)]
pub struct Gauge {
    board: Arc<Board>,
}

impl Gauge {
    pub(crate) fn new(board: Arc<Board>) -> Gauge {
        Gauge { board }
    }

    /// Returns the counters of the device as they were after the last turn. In this row, what
    /// arrived was sent, refused or dropped, or is queued. No counter is less than in a row that
    /// was read before, except that of the queued packets.
    ///
    /// The drain does not wait for this call. The call reads again if a turn ends meanwhile.
    #[must_use]
    pub fn read(&self) -> Row {
        self.board.read()
    }
}
