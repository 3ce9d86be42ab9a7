//! Words to give a head: mostly allowed ones, so that runs go on.

use crate::random::Random;
use paper::words::KIND_COUNT;
use paper::{decode, Decoded};
use shabgozim::kind;

/// The allowed words of each kind.
pub struct Words {
    allowed: Vec<Vec<u16>>,
}

impl Words {
    pub fn new() -> Words {
        let mut allowed = vec![Vec::new(); KIND_COUNT];
        for word in 0..=u16::MAX {
            if let Decoded::Allowed { kind, .. } = decode(word) {
                allowed[usize::from(kind.index())].push(word);
            }
        }
        Words { allowed }
    }

    /// An allowed word of a kind, the first and last more often.
    pub fn of_kind(&self, random: &mut Random, kind: u8) -> u16 {
        let words = &self.allowed[usize::from(kind)];
        words[random.within(0, words.len() as i32 - 1) as usize]
    }

    /// One of the first few allowed words of a kind.
    pub fn least(&self, random: &mut Random, kind: u8) -> u16 {
        const FEW: usize = 3;
        let words = &self.allowed[usize::from(kind)];
        words[random.below(words.len().min(FEW))]
    }

    /// The word that a head with so many words of a mirror set waits for.
    pub fn next_mirror_word(&self, random: &mut Random, set_words: u16) -> u16 {
        self.of_kind(random, next_mirror_kind(set_words))
    }

    /// An allowed word of any kind.
    pub fn allowed(&self, random: &mut Random) -> u16 {
        let kind = random.below(KIND_COUNT) as u8;
        self.of_kind(random, kind)
    }

    /// A word for a head that has so many words of a mirror set.
    pub fn likely(&self, random: &mut Random, set_words: u16) -> u16 {
        match random.below(16) {
            0 => random.number(),
            1 => self.nearly_allowed(random),
            2..=5 => self.next_mirror_word(random, set_words),
            6 => self.of_kind(random, kind::STOP),
            _ => self.allowed(random),
        }
    }

    /// The word before the first or after the last of a kind.
    fn nearly_allowed(&self, random: &mut Random) -> u16 {
        let words = random.pick(&self.allowed);
        match random.below(2) {
            0 => words[0].wrapping_sub(1),
            _ => words[words.len() - 1].wrapping_add(1),
        }
    }
}

impl Default for Words {
    fn default() -> Words {
        Words::new()
    }
}

fn next_mirror_kind(set_words: u16) -> u8 {
    match set_words {
        1 => kind::SIN_L,
        2 => kind::COS_M,
        3 => kind::COS_L,
        _ => kind::SIN_M,
    }
}
