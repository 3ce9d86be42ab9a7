//! Words decoded, by either decoder.

use super::{shuffle, Workload};
use compare::random::Random;
use compare::sides::Side;
use compare::words::Words;
use shabgozim::kind;
use std::hint::black_box;

#[derive(Clone, Copy)]
pub enum Decoder {
    ByIdentifier,
    ByUpperByte,
}

/// Words of every kind in a random order, and some others.
pub struct DecodedWords {
    decoder: Decoder,
    words: Vec<u16>,
}

impl DecodedWords {
    pub fn new(decoder: Decoder) -> DecodedWords {
        let kinds = Words::new();
        let mut random = Random::new(3);
        let mut words = Vec::new();
        for _ in 0..64 {
            words.extend((0..kind::COUNT).map(|kind| kinds.of_kind(&mut random, kind)));
            words.push(random.number());
        }
        shuffle(&mut random, &mut words);
        DecodedWords { decoder, words }
    }
}

impl Workload for DecodedWords {
    fn calls(&self) -> usize {
        self.words.len()
    }

    fn pass<S: Side>(&mut self) -> u64 {
        let words = self.words.iter().copied();
        match self.decoder {
            Decoder::ByIdentifier => words
                .map(|word| u64::from(S::decode(black_box(word))))
                .sum(),
            Decoder::ByUpperByte => words
                .map(|word| u64::from(S::decode_by_byte(black_box(word))))
                .sum(),
        }
    }
}
