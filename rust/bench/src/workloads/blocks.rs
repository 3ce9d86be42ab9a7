//! Both blocks, written and read.

use super::Workload;
use compare::blocks::Block;
use compare::random::Random;
use compare::sides::{Paper, Shown, Side};
use compare::states::{self, Numbers};
use std::hint::black_box;

const BLOCKS: usize = 64;

/// Blocks of states in range.
pub struct WrittenBlocks {
    block: Block,
    given: Vec<Given>,
    buffer: Vec<u16>,
}

/// Blocks as they are written.
pub struct ReadBlocks {
    block: Block,
    blocks: Vec<Vec<u16>>,
    meaning: Vec<u16>,
}

/// What a writer is given.
struct Given {
    state: Numbers,
    shown: Shown,
    readings: Vec<u16>,
}

impl Given {
    fn random(random: &mut Random, block: Block) -> Given {
        Given {
            state: states::in_range(random),
            shown: Shown {
                flags: random.below(32) as u32,
                ended: random.below(2) as u32,
                bits: random.below(8) as u32,
            },
            readings: (0..block.readings()).map(|_| random.number()).collect(),
        }
    }

    fn write<S: Side>(&self, block: Block, buffer: &mut [u16]) -> u32 {
        let write = match block {
            Block::Ir => S::write_ir,
            Block::Ccd => S::write_ccd,
        };
        let readings = black_box(&self.readings[..]);
        write(black_box(&self.state[..]), self.shown, readings, buffer)
    }
}

impl WrittenBlocks {
    pub fn new(block: Block) -> WrittenBlocks {
        let mut random = Random::new(5);
        let given = (0..BLOCKS).map(|_| Given::random(&mut random, block));
        WrittenBlocks {
            block,
            given: given.collect(),
            buffer: vec![0; block.length()],
        }
    }
}

impl Workload for WrittenBlocks {
    fn calls(&self) -> usize {
        self.given.len()
    }

    fn pass<S: Side>(&mut self) -> u64 {
        let buffer = &mut self.buffer[..];
        let write = |given: &Given| {
            let answer = given.write::<S>(self.block, black_box(&mut *buffer));
            u64::from(answer) + u64::from(buffer[buffer.len() - 1])
        };
        self.given.iter().map(write).sum()
    }
}

impl ReadBlocks {
    pub fn new(block: Block) -> ReadBlocks {
        let written = WrittenBlocks::new(block);
        let one = |given: &Given| {
            let mut buffer = vec![0; block.length()];
            given.write::<Paper>(block, &mut buffer);
            buffer
        };
        ReadBlocks {
            block,
            blocks: written.given.iter().map(one).collect(),
            meaning: vec![0; block.meaning()],
        }
    }
}

impl Workload for ReadBlocks {
    fn calls(&self) -> usize {
        self.blocks.len()
    }

    fn pass<S: Side>(&mut self) -> u64 {
        let read = match self.block {
            Block::Ir => S::read_ir,
            Block::Ccd => S::read_ccd,
        };
        let meaning = &mut self.meaning[..];
        let one = |block: &Vec<u16>| {
            let answer = read(black_box(block), black_box(&mut *meaning));
            u64::from(answer) + u64::from(meaning[meaning.len() - 1])
        };
        self.blocks.iter().map(one).sum()
    }
}
