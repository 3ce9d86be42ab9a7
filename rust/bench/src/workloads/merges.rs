//! Pairs of lists to be merged, of 256 entries each.

use compare::random::Random;
use shabgozim::raw::Merged;
use std::hint::black_box;

const PAIRS: usize = 16;
const ENTRIES: usize = 256;

pub struct Merges {
    pairs: Vec<[Vec<u64>; 2]>,
    merged: Vec<u64>,
}

impl Merges {
    pub fn new() -> Merges {
        let mut random = Random::new(8);
        Merges {
            pairs: (0..PAIRS).map(|_| random_pair(&mut random)).collect(),
            merged: vec![0; 2 * ENTRIES],
        }
    }

    pub fn calls(&self) -> usize {
        self.pairs.len()
    }

    /// Merges every pair once; the sum tells that both sides answer alike.
    pub fn pass(&mut self, merge: fn(&[u64], &[u64], &mut [u64]) -> Merged) -> u64 {
        let merged = &mut self.merged;
        let of_pair = |[ccd, infrared]: &[Vec<u64>; 2]| {
            let told = merge(
                black_box(ccd),
                black_box(infrared),
                black_box(&mut merged[..]),
            );
            told.count as u64 + told.rest_start as u64 + merged[told.count - 1]
        };
        self.pairs.iter().map(of_pair).sum()
    }
}

/// Two lists whose ticks lie among each other, with none in common.
fn random_pair(random: &mut Random) -> [Vec<u64>; 2] {
    let mut lists = [Vec::new(), Vec::new()];
    let mut tick = 0;
    while lists.iter().any(|list| list.len() < ENTRIES) {
        tick += 1 + random.below(4) as u64;
        let list = &mut lists[random.below(2)];
        if list.len() < ENTRIES {
            list.push(tick << 16 | u64::from(random.number()));
        }
    }
    lists
}
