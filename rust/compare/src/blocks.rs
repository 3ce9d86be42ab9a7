//! The two housekeeping blocks, written, read and damaged.

use crate::buffer::{difference, Buffer};
use crate::random::Random;
use crate::reduce::{failure, Case, Counted};
use crate::sides::{Functions, Shown, Sides};
use crate::states;
use shabgozim::{CCD_LENGTH, CCD_MEANING_LENGTH, CCD_READINGS};
use shabgozim::{IR_LENGTH, IR_MEANING_LENGTH, IR_READINGS};
use std::fmt;

const FILL: u16 = 0xAAAA;
/// Longer than any block or meaning.
const ROOM: usize = 72;

/// One of the two blocks.
#[derive(Clone, Copy, Debug, PartialEq, Eq)]
pub enum Block {
    Ir,
    Ccd,
}

/// A block to write.
#[derive(Clone)]
struct WriteCase {
    block: Block,
    state: Vec<u16>,
    shown: Shown,
    readings: Vec<u16>,
    room: usize,
}

/// A block to read.
#[derive(Clone)]
struct ReadCase {
    block: Block,
    words: Vec<u16>,
    room: usize,
}

impl Block {
    const BOTH: [Block; 2] = [Block::Ir, Block::Ccd];

    pub fn length(self) -> usize {
        match self {
            Block::Ir => IR_LENGTH,
            Block::Ccd => CCD_LENGTH,
        }
    }

    pub fn readings(self) -> usize {
        match self {
            Block::Ir => IR_READINGS,
            Block::Ccd => CCD_READINGS,
        }
    }

    /// Numbers that reading it gives.
    pub fn meaning(self) -> usize {
        match self {
            Block::Ir => IR_MEANING_LENGTH,
            Block::Ccd => CCD_MEANING_LENGTH,
        }
    }
}

impl WriteCase {
    fn random(random: &mut Random, block: Block, state: &[u16]) -> WriteCase {
        WriteCase {
            block,
            state: state.to_vec(),
            shown: any_shown(random),
            readings: (0..block.readings()).map(|_| random.number()).collect(),
            room: block.length(),
        }
    }

    fn write(&self, side: &Functions, buffer: &mut Buffer<u16>) -> u32 {
        buffer.refill(FILL, self.room);
        let write = match self.block {
            Block::Ir => side.write_ir,
            Block::Ccd => side.write_ccd,
        };
        write(&self.state, self.shown, &self.readings, buffer.lent())
    }
}

impl ReadCase {
    fn new(block: Block, words: &[u16]) -> ReadCase {
        ReadCase {
            block,
            words: words.to_vec(),
            room: block.meaning(),
        }
    }

    fn read(&self, side: &Functions, buffer: &mut Buffer<u16>) -> u32 {
        buffer.refill(FILL, self.room);
        let read = match self.block {
            Block::Ir => side.read_ir,
            Block::Ccd => side.read_ccd,
        };
        read(&self.words, buffer.lent())
    }
}

/// Either case, given to a side with a buffer to write to.
trait BlockCase: Case + Clone {
    fn give(&self, side: &Functions, buffer: &mut Buffer<u16>) -> u32;
}

impl BlockCase for WriteCase {
    fn give(&self, side: &Functions, buffer: &mut Buffer<u16>) -> u32 {
        self.write(side, buffer)
    }
}

impl BlockCase for ReadCase {
    fn give(&self, side: &Functions, buffer: &mut Buffer<u16>) -> u32 {
        self.read(side, buffer)
    }
}

/// The buffers of both sides, used again.
struct Pair {
    sides: Sides,
    library: Buffer<u16>,
    paper: Buffer<u16>,
}

impl Pair {
    fn new(sides: &Sides) -> Pair {
        Pair {
            sides: *sides,
            library: Buffer::filled(ROOM, FILL),
            paper: Buffer::filled(ROOM, FILL),
        }
    }

    fn answers<C: BlockCase>(&mut self, case: &C) -> (u32, u32) {
        let answer = case.give(&self.sides.library, &mut self.library);
        (answer, case.give(&self.sides.paper, &mut self.paper))
    }

    /// Compares the answers and every place of the buffer.
    fn compare<C: BlockCase>(&mut self, case: &C) -> Counted {
        let (answer, expected) = self.answers(case);
        match answer == expected && self.library == self.paper {
            true => Ok(1),
            false => Err(failure(&self.sides, case.clone())),
        }
    }
}

fn difference_of<C: BlockCase>(case: &C, sides: &Sides) -> Option<String> {
    let mut pair = Pair::new(sides);
    let (answer, expected) = pair.answers(case);
    if answer != expected {
        return Some(format!("answer: library {answer:#X}, paper {expected:#X}"));
    }
    difference("buffer", &pair.library, &pair.paper)
}

impl Case for WriteCase {
    fn difference(&self, sides: &Sides) -> Option<String> {
        difference_of(self, sides)
    }

    fn shorter(&self) -> Vec<WriteCase> {
        let states = states::shorter(&self.state).into_iter();
        let nearer = states.map(|state| WriteCase {
            state,
            ..self.clone()
        });
        let lists = zeroed(&self.readings).into_iter();
        let lesser = lists.map(|readings| WriteCase {
            readings,
            ..self.clone()
        });
        let plain = WriteCase {
            shown: Shown::default(),
            ..self.clone()
        };
        let plain = (self.shown != plain.shown).then_some(plain);
        nearer.chain(lesser).chain(plain).collect()
    }
}

impl Case for ReadCase {
    fn difference(&self, sides: &Sides) -> Option<String> {
        difference_of(self, sides)
    }

    fn shorter(&self) -> Vec<ReadCase> {
        let lists = zeroed(&self.words).into_iter();
        lists
            .map(|words| ReadCase {
                words,
                ..self.clone()
            })
            .collect()
    }
}

/// The numbers with one of them 0 that was not.
fn zeroed(numbers: &[u16]) -> Vec<Vec<u16>> {
    let places = (0..numbers.len()).filter(|&place| numbers[place] != 0);
    let change = |place: usize| {
        let mut lesser = numbers.to_vec();
        lesser[place] = 0;
        lesser
    };
    places.map(change).collect()
}

impl fmt::Display for WriteCase {
    fn fmt(&self, out: &mut fmt::Formatter) -> fmt::Result {
        writeln!(out, "write {:?} of {}", self.block, self.room)?;
        writeln!(out, "from {}", states::describe(&self.state))?;
        write!(out, "{:?}, readings {:04X?}", self.shown, self.readings)
    }
}

impl fmt::Display for ReadCase {
    fn fmt(&self, out: &mut fmt::Formatter) -> fmt::Result {
        write!(out, "read {:?} {:04X?}", self.block, self.words)?;
        write!(out, " into {}", self.room)
    }
}

fn any_shown(random: &mut Random) -> Shown {
    let any = random.once_in(8);
    let mut up_to = |limit: usize| match any {
        true => random.bits() as u32 >> random.below(32),
        false => random.below(limit) as u32,
    };
    Shown {
        flags: up_to(32),
        ended: up_to(2),
        bits: up_to(8),
    }
}

/// States of every sort, with every combination of flags and bits.
pub fn written(sides: &Sides, random: &mut Random, times: u32) -> Counted {
    let mut pair = Pair::new(sides);
    let mut count = 0;
    for block in Block::BOTH {
        for state in states::at_limits(&states::power_on()) {
            count += pair.compare(&WriteCase::random(random, block, &state))?;
        }
        count += every_shown(&mut pair, random, block)?;
        for _ in 0..500_000 * times {
            let state = states::any(random);
            count += pair.compare(&WriteCase::random(random, block, &state))?;
        }
    }
    Ok(count)
}

fn every_shown(pair: &mut Pair, random: &mut Random, block: Block) -> Counted {
    let mut count = 0;
    for flags in 0..32 {
        for bits in 0..8 {
            for ended in 0..4 {
                let state = states::idle(random);
                let mut case = WriteCase::random(random, block, &state);
                case.shown = Shown { flags, ended, bits };
                count += pair.compare(&case)?;
            }
        }
    }
    Ok(count)
}

/// Written blocks, with each word at every value, each bit changed, and
/// several words damaged.
pub fn read(sides: &Sides, random: &mut Random, times: u32) -> Counted {
    let mut pair = Pair::new(sides);
    let mut count = 0;
    for block in Block::BOTH {
        for _ in 0..times {
            count += every_value(&mut pair, &right_block(sides, random, block))?;
        }
        for _ in 0..5_000 * times {
            let right = right_block(sides, random, block);
            count += pair.compare(&right)?;
            count += each_bit(&mut pair, &right)?;
            count += several_words(&mut pair, random, &right)?;
        }
    }
    Ok(count)
}

/// A block as it is written from a state in range.
fn right_block(sides: &Sides, random: &mut Random, block: Block) -> ReadCase {
    let state = states::in_range(random);
    let mut buffer = Buffer::filled(ROOM, FILL);
    WriteCase::random(random, block, &state).write(&sides.paper, &mut buffer);
    ReadCase::new(block, buffer.values())
}

fn every_value(pair: &mut Pair, right: &ReadCase) -> Counted {
    let mut count = 0;
    for place in 0..right.words.len() {
        let mut damaged = right.clone();
        for value in 0..=u16::MAX {
            damaged.words[place] = value;
            count += pair.compare(&damaged)?;
        }
    }
    Ok(count)
}

fn each_bit(pair: &mut Pair, right: &ReadCase) -> Counted {
    let mut count = 0;
    let mut damaged = right.clone();
    for place in 0..right.words.len() {
        for bit in 0..16 {
            damaged.words[place] ^= 1 << bit;
            count += pair.compare(&damaged)?;
            damaged.words[place] ^= 1 << bit;
        }
    }
    Ok(count)
}

/// Two to four words damaged, and a block of arbitrary words.
fn several_words(pair: &mut Pair, random: &mut Random, right: &ReadCase) -> Counted {
    let mut damaged = right.clone();
    for _ in 0..2 + random.below(3) {
        let place = random.below(damaged.words.len());
        damaged.words[place] = random.number() >> random.below(16);
    }
    let mut count = pair.compare(&damaged)?;
    damaged.words.fill_with(|| random.number());
    count += pair.compare(&damaged)?;
    Ok(count)
}

/// Every length of every slice, right and wrong.
pub fn lengths(sides: &Sides, random: &mut Random, times: u32) -> Counted {
    let mut pair = Pair::new(sides);
    let mut count = 0;
    for block in Block::BOTH {
        for _ in 0..times {
            for first in 0..=ROOM {
                for second in 0..=ROOM {
                    count += two_lengths(&mut pair, random, block, first, second)?;
                }
            }
        }
    }
    Ok(count)
}

/// One length for what is read, one for what is written.
fn two_lengths(
    pair: &mut Pair,
    random: &mut Random,
    block: Block,
    first: usize,
    second: usize,
) -> Counted {
    let mut read = right_block(&pair.sides, random, block);
    read.words.resize(first, 0);
    read.room = second;
    let mut count = pair.compare(&read)?;
    let state = states::any(random);
    let mut write = WriteCase::random(random, block, &state);
    write.readings.resize(first, 0);
    write.room = second;
    count += pair.compare(&write)?;
    let cycled: Vec<u16> = state.into_iter().cycle().take(first).collect();
    let mut write = WriteCase::random(random, block, &cycled);
    write.room = second;
    count += pair.compare(&write)?;
    Ok(count)
}
