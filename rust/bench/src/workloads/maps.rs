//! Pixel maps, each with pixels lighted at random.

use compare::random::Random;
use shabgozim::PixelMap;
use std::hint::black_box;

const MAPS: usize = 16;

pub struct Maps {
    maps: Vec<Vec<u8>>,
}

impl Maps {
    pub fn new() -> Maps {
        let mut random = Random::new(7);
        let maps = (0..MAPS).map(|_| random_map(&mut random)).collect();
        Maps { maps }
    }

    pub fn calls(&self) -> usize {
        self.maps.len()
    }

    /// Measures every map once; the sum tells that both sides answer alike.
    pub fn pass(&self, measure: fn(&[u8]) -> u32) -> u64 {
        let measures = self.maps.iter().map(|map| measure(black_box(&map[..])));
        measures.map(u64::from).sum()
    }
}

fn random_map(random: &mut Random) -> Vec<u8> {
    let mut map: Vec<u8> = (0..PixelMap::BYTES)
        .map(|_| random.number() as u8)
        .collect();
    map[PixelMap::BYTES - 1] &= 0xF0;
    map
}
