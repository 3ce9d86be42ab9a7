//! A list of timed words given to the head in one call.

use crate::head::{tick, word, Cause};
use crate::state::{in_range, State};

/// The most words a list may have.
pub const MOST_LIST_WORDS: usize = 256;

const DONE: u16 = 0;
pub const NO_LIST: u16 = 31;

/// After the last word its own tick passes.
const LAST_GAP: u32 = 1;

/// Gives the head the words of a list, the first at once, and lets the ticks
/// between them pass and the last word's own. The outcome of each word is the
/// answer of [`word`].
///
/// The answer is 0, or 21 for a state out of range, or else 31 for ticks that
/// don't rise, lists of unequal length or over 256 words, or fewer places for
/// outcomes than words. A refusal changes nothing.
pub fn list(state: &mut State, words: &[u16], ticks: &[u32], outcomes: &mut [u16]) -> u16 {
    if !in_range(state) {
        return Cause::StateOutOfRange.number();
    }
    if !is_list(words, ticks) || outcomes.len() < words.len() {
        return NO_LIST;
    }
    let steps = words.iter().zip(gaps(ticks));
    for ((&code, gap), outcome) in steps.zip(outcomes) {
        *outcome = word(state, code);
        pass(state, gap);
    }
    DONE
}

/// How many ticks pass after each word.
pub fn gaps(ticks: &[u32]) -> impl Iterator<Item = u32> + '_ {
    let between = ticks.windows(2).map(|pair| pair[1] - pair[0]);
    between.chain([LAST_GAP])
}

/// Lets so many ticks pass, one after another. A tick that leaves the state
/// as it was is the last one made: none after it would change anything.
pub fn pass(state: &mut State, ticks: u32) {
    for _ in 0..ticks {
        let before = *state;
        tick(state);
        if *state == before {
            return;
        }
    }
}

/// As many words as ticks, not too many, the ticks rising.
pub fn is_list(words: &[u16], ticks: &[u32]) -> bool {
    words.len() == ticks.len()
        && words.len() <= MOST_LIST_WORDS
        && ticks.windows(2).all(|pair| pair[0] < pair[1])
}
