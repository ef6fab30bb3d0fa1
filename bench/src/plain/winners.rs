use super::place::{at, at_mut};

/// A tournament tree by ranks, the flows behind the inner nodes: the fat flow is at its top.
pub struct Winners {
    ranks: Vec<u64>,
}

/// The greater for more bytes, and of equals for the lower index.
#[inline(always)]
fn rank_of(flow: u32, bytes: u64) -> u64 {
    bytes * 65536 + u64::from(65535 - flow)
}

impl Winners {
    pub fn new(flows: usize) -> Winners {
        let mut ranks = vec![0; 2 * flows];
        for node in (1..2 * flows).rev() {
            ranks[node] = if node < flows {
                ranks[2 * node].max(ranks[2 * node + 1])
            } else {
                rank_of((node - flows) as u32, 0)
            };
        }
        Winners { ranks }
    }

    /// The flow with the most bytes, if this one had so many: as many as it has, or more.
    pub fn top_with(&self, flow: u32, bytes: u64) -> u32 {
        65535 - (rank_of(flow, bytes).max(self.ranks[1]) % 65536) as u32
    }

    #[inline(always)]
    pub fn renew(&mut self, flow: u32, bytes: u64) {
        let mut child = self.ranks.len() / 2 + flow as usize;
        let mut best = rank_of(flow, bytes);
        *at_mut(&mut self.ranks, child) = best;
        while child > 1 {
            best = best.max(*at(&self.ranks, child ^ 1));
            child /= 2;
            let rank = at_mut(&mut self.ranks, child);
            if *rank == best {
                return;
            }
            *rank = best;
        }
    }
}
