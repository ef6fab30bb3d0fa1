//! A tournament tree by ranks, with the fat flow at its top. It is kept at all times, or only while it may be asked: from the first
//! put over the limit until half of that is queued.

use crate::plain::place::{at, at_mut};

pub struct Winners {
    ranks: Vec<u64>,
    pub armed: bool,
}

/// The greater for more bytes, and of equals for the lower index.
#[inline(always)]
fn rank_of(flow: u32, bytes: u64) -> u64 {
    bytes * 65536 + u64::from(65535 - flow)
}

impl Winners {
    pub fn new(flows: usize) -> Winners {
        Winners {
            ranks: vec![0; 2 * flows],
            armed: false,
        }
    }

    /// Builds the tree from the bytes of all flows in their order.
    #[cold]
    #[inline(never)]
    pub fn arm(&mut self, bytes: impl Iterator<Item = u64>) {
        let flows = self.ranks.len() / 2;
        for (flow, bytes) in bytes.enumerate() {
            self.ranks[flows + flow] = rank_of(flow as u32, bytes);
        }
        for node in (1..flows).rev() {
            self.ranks[node] = self.ranks[2 * node].max(self.ranks[2 * node + 1]);
        }
        // Above every rank, so that each climb ends there.
        self.ranks[0] = u64::MAX;
        self.armed = true;
    }

    /// The flow with the most bytes.
    #[inline(always)]
    pub fn top(&self) -> u32 {
        65535 - (*at(&self.ranks, 1) % 65536) as u32
    }

    #[inline(always)]
    pub fn renew(&mut self, flow: u32, bytes: u64) {
        if *at(&self.ranks, self.leaf(flow)) < rank_of(flow, bytes) {
            self.raise(flow, bytes);
        } else {
            self.lower(flow, bytes);
        }
    }

    #[inline(always)]
    fn leaf(&self, flow: u32) -> usize {
        self.ranks.len() / 2 + flow as usize
    }

    /// The flow has no fewer bytes than before.
    #[inline(always)]
    pub fn raise(&mut self, flow: u32, bytes: u64) {
        let rank = rank_of(flow, bytes);
        let leaf = self.leaf(flow);
        *at_mut(&mut self.ranks, leaf) = rank;
        let mut node = leaf / 2;
        while *at(&self.ranks, node) < rank {
            *at_mut(&mut self.ranks, node) = rank;
            node /= 2;
        }
    }

    /// The flow has no more bytes than before.
    #[inline(always)]
    pub fn lower(&mut self, flow: u32, bytes: u64) {
        let mut best = rank_of(flow, bytes);
        let mut node = self.leaf(flow);
        let old = *at(&self.ranks, node);
        while *at(&self.ranks, node) == old {
            *at_mut(&mut self.ranks, node) = best;
            best = best.max(*at(&self.ranks, node ^ 1));
            node /= 2;
        }
    }
}
