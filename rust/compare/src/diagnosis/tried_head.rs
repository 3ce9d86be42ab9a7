//! The answer that is true of a word, found by giving the library's own head
//! words and ticks.

use crate::sides::Functions;
use shabgozim::kind;
use std::ops::RangeInclusive;

const NOP: u16 = 0x0000;
const COVER: u16 = 0x1000;
/// Document 01's mirror words: the first of a set, and the others.
const SIN_M: RangeInclusive<u16> = 0x2000..=0x201F;
const OTHERS: [(u8, RangeInclusive<u16>); 3] = [
    (kind::SIN_L, 0xA000..=0xA0FF),
    (kind::COS_M, 0x6000..=0x600F),
    (kind::COS_L, 0xE000..=0xE0FF),
];

const TAKEN: u32 = 0;
const STATE_REFUSED: u32 = 21;
const WRONG_TIME: u32 = 22;
const UNKNOWN: u32 = 23;
const OUT_OF_RANGE: u32 = 24;
const OUT_OF_TURN: u32 = 25;
const OF_COVER: u32 = 1 << 31;
/// No task or motion lasts longer.
const MOST_TICKS: u32 = 1 << 16;

/// A head in a state, and what it was found to do there.
pub struct TriedHead<'a> {
    side: &'a Functions,
    state: &'a [u16],
    /// Lent to the head, so that the state stays.
    lent: Vec<u16>,
    /// Ticks until it takes NOP.
    busy_ticks: u32,
    /// Ticks until it takes COVER, where it is not busy.
    cover_ticks: u32,
    /// The mirror word that is due, where there is just one.
    due: Option<u8>,
}

impl<'a> TriedHead<'a> {
    pub fn new(side: &'a Functions, state: &'a [u16]) -> TriedHead<'a> {
        let mut head = TriedHead {
            side,
            state,
            lent: state.to_vec(),
            busy_ticks: 0,
            cover_ticks: 0,
            due: None,
        };
        head.busy_ticks = head.ticks_until_not_22(NOP);
        if head.busy_ticks == 0 {
            head.cover_ticks = head.ticks_until_not_22(COVER);
            head.due = head.due_mirror_word();
        }
        head
    }

    fn word(&mut self, word: u16) -> u32 {
        self.lent.copy_from_slice(self.state);
        (self.side.word)(&mut self.lent, word)
    }

    /// After how many ticks the head no longer ignores a word under 22.
    fn ticks_until_not_22(&self, word: u16) -> u32 {
        let mut state = self.state.to_vec();
        let answer = |state: &[u16]| (self.side.word)(&mut state.to_vec(), word);
        let mut ticks = 0;
        while ticks < MOST_TICKS && answer(&state) == WRONG_TIME {
            (self.side.tick)(&mut state);
            ticks += 1;
        }
        ticks
    }

    /// SIN M is always taken; of the others at most one is, with all its allowed
    /// data, and then it is the one that is due.
    fn due_mirror_word(&mut self) -> Option<u8> {
        let mut taken = Vec::new();
        let mut out_of_turn = 0;
        for (kind, words) in OTHERS {
            match self.answer_to_all(words) {
                Some(TAKEN) => taken.push(kind),
                Some(OUT_OF_TURN) => out_of_turn += 1,
                _ => return None,
            }
        }
        match (self.answer_to_all(SIN_M), &taken[..], out_of_turn) {
            (Some(TAKEN), [], 3) => Some(kind::SIN_M),
            (Some(TAKEN), [due], 2) => Some(*due),
            _ => None,
        }
    }

    /// What the head answers to all of these words, where that is the same.
    fn answer_to_all(&mut self, mut words: RangeInclusive<u16>) -> Option<u32> {
        let answer = self.word(*words.start());
        let is_the_same = words.all(|word| self.word(word) == answer);
        is_the_same.then_some(answer)
    }

    /// What is true of a word in this state; nothing where no one mirror word is
    /// due.
    pub fn why(&mut self, word: u16) -> Option<u32> {
        let answer = match self.word(word) {
            STATE_REFUSED => STATE_REFUSED,
            WRONG_TIME if self.busy_ticks > 0 => WRONG_TIME | self.busy_ticks << 8,
            WRONG_TIME => WRONG_TIME | self.cover_ticks << 8 | OF_COVER,
            number @ (UNKNOWN | OUT_OF_RANGE) => number | u32::from(word) << 8,
            OUT_OF_TURN => OUT_OF_TURN | u32::from(self.due?) << 8,
            _ => TAKEN,
        };
        Some(answer)
    }
}
