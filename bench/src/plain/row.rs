//! What a node of the tree counts.

use super::signals::Sums;

#[derive(Clone, Copy, Default, PartialEq, Eq)]
pub struct Totals {
    pub packets: u64,
    pub bytes: u64,
}

impl Totals {
    #[inline(always)]
    pub fn add(&mut self, len: u16) {
        self.packets += 1;
        self.bytes += u64::from(len);
    }

    pub fn join(&mut self, more: Totals) {
        self.packets += more.packets;
        self.bytes += more.bytes;
    }
}

/// Packets and bytes are kept apart, since neighbours that are written as one number and read as two hold the processor up.
/// What is queued follows from the rest, so that an arrival writes `arrived` alone and a poll `sent` alone.
#[derive(Clone, Copy, Default)]
pub struct Row {
    arrived: u64,
    sent: u64,
    refused: u64,
    dropped: u64,
    marked: u64,
    arrived_bytes: u64,
    sent_bytes: u64,
    refused_bytes: u64,
    dropped_bytes: u64,
    marked_bytes: u64,
}

impl Row {
    /// The packets that are queued.
    #[inline(always)]
    pub fn queued(&self) -> u64 {
        self.arrived - self.sent - self.refused - self.dropped
    }

    #[inline(always)]
    pub fn arrive(&mut self, len: u16) {
        self.arrived += 1;
        self.arrived_bytes += u64::from(len);
    }

    #[inline(always)]
    pub fn send(&mut self, len: u16) {
        self.sent += 1;
        self.sent_bytes += u64::from(len);
    }

    #[cold]
    #[inline(never)]
    pub fn book(&mut self, sums: &Sums) {
        self.refused += sums.refused.packets;
        self.refused_bytes += sums.refused.bytes;
        self.dropped += sums.dropped.packets;
        self.dropped_bytes += sums.dropped.bytes;
        self.marked += sums.marked.packets;
        self.marked_bytes += sums.marked.bytes;
    }

    /// Arrived, sent, refused, dropped, queued and marked.
    pub fn totals(&self) -> [Totals; 6] {
        let gone = self.sent_bytes + self.refused_bytes + self.dropped_bytes;
        let totals = |packets, bytes| Totals { packets, bytes };
        [
            totals(self.arrived, self.arrived_bytes),
            totals(self.sent, self.sent_bytes),
            totals(self.refused, self.refused_bytes),
            totals(self.dropped, self.dropped_bytes),
            totals(self.queued(), self.arrived_bytes - gone),
            totals(self.marked, self.marked_bytes),
        ]
    }
}
