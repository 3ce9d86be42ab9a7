//! A list of timed words given to a head in one call.

use crate::raw;
use crate::state::{Outcome, State};

/// Why a list is refused; each with its number in the documents.
#[derive(Clone, Copy, Debug, PartialEq, Eq)]
pub enum ListRefusal {
    StateOutOfRange = 21,
    /// The ticks don't rise or are not as many as the words, or there are more
    /// words than [`MOST_WORDS`](crate::MOST_WORDS).
    NoList = 31,
}

impl State {
    /// Gives the head a list of words with their ticks, as
    /// [`Schedule::words`](crate::Schedule::words) has them: the first word at
    /// once, the ticks between words, and after the last word its own tick.
    /// There is one outcome for each word; an ignored word does not stop the
    /// rest. A refusal leaves the state as it was.
    pub fn list(&mut self, timed: &[(u32, u16)]) -> Result<Vec<Outcome>, ListRefusal> {
        let (ticks, words): (Vec<u32>, Vec<u16>) = timed.iter().copied().unzip();
        let mut outcomes = vec![0; words.len()];
        let unpacked = |number: u16| Outcome::of(number.into());
        match raw::list(&mut self.numbers, &words, &ticks, &mut outcomes) {
            0 => Ok(outcomes.into_iter().map(unpacked).collect()),
            21 => Err(ListRefusal::StateOutOfRange),
            _ => Err(ListRefusal::NoList),
        }
    }
}

impl ListRefusal {
    /// The number of this refusal in the documents.
    pub fn number(self) -> u8 {
        self as u8
    }
}
