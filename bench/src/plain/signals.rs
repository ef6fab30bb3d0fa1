//! What a call loses and marks on its way.

use super::packet::{Cause, Lost, Packet, Put};
use super::row::Totals;
use std::collections::VecDeque;

#[derive(Clone, Copy, Default)]
pub struct Sums {
    pub refused: Totals,
    pub dropped: Totals,
    pub marked: Totals,
}

/// The losses that wait to be reaped, and the sums of one call at one node. Each node books them on its way back, and finds
/// them clean when it is asked: who asks several nodes in one call folds the sums away between them.
#[derive(Default)]
pub struct Signals {
    /// Whether the sums are more than zero.
    pub any: bool,
    pub sums: Sums,
    pub lost: VecDeque<Lost>,
}

impl Signals {
    #[cold]
    #[inline(never)]
    pub fn refuse(&mut self, packet: &Packet, cause: Cause) -> Put {
        self.any = true;
        self.sums.refused.add(packet.len);
        self.lose(packet, cause);
        Put::Lost(cause)
    }

    #[inline(always)]
    pub fn drop(&mut self, packet: &Packet, cause: Cause) {
        self.any = true;
        self.sums.dropped.add(packet.len);
        self.lose(packet, cause);
    }

    #[inline(always)]
    pub fn mark(&mut self, len: u16) {
        self.any = true;
        self.sums.marked.add(len);
    }

    #[inline(always)]
    fn lose(&mut self, packet: &Packet, cause: Cause) {
        self.lost.push_back(Lost { packet: *packet, cause });
    }

    #[cold]
    #[inline(never)]
    pub fn clean(&mut self) {
        self.any = false;
        self.sums = Sums::default();
    }

    /// Adds the sums to those of the nodes that were asked before, and cleans them.
    #[cold]
    #[inline(never)]
    pub fn fold(&mut self, before: &mut Option<Sums>) {
        let folded = before.get_or_insert_default();
        folded.refused.join(self.sums.refused);
        folded.dropped.join(self.sums.dropped);
        folded.marked.join(self.sums.marked);
        self.clean();
    }

    /// The sums of all nodes that were asked.
    #[cold]
    #[inline(never)]
    pub fn unfold(&mut self, before: &mut Option<Sums>) {
        self.fold(before);
        self.any = true;
        self.sums = before.unwrap_or_default();
    }

    /// Makes room for the loss of this many packets; `None` if an allocation fails.
    #[inline(always)]
    pub fn reserve(&mut self, packets: usize) -> Option<()> {
        if self.lost.capacity() - self.lost.len() >= packets {
            return Some(());
        }
        self.lost.try_reserve(packets).ok()
    }
}
