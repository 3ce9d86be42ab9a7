//! Words asked about from the states that the head is given words in: the
//! answer, and that every place of the state stays as it was.

use crate::limit_gaps::busy_and_moving;
use crate::random::Random;
use crate::reduce::Counted;
use crate::sides::Sides;
use crate::states;
use crate::step_case::{Pair, Step};
use crate::steps::{from_states, next_step, words_of_each_kind, LONGEST_STATE, RUN_LENGTH};
use crate::words::Words;
use shabgozim::place;

/// All words from plain states, from every limit and from many states of each
/// sort, some from states of every length; and runs.
pub fn words(sides: &Sides, random: &mut Random, times: u32) -> Counted {
    let mut count = plain(sides)?;
    count += state_lengths(sides, random, times)?;
    count += from_states(random, times, |state, words| asked(sides, state, words))?;
    Ok(count + runs(sides, random, times)?)
}

/// All words where each rule holds by itself, where several hold at once, and
/// where a head is busy with no task, which is out of range.
fn plain(sides: &Sides) -> Counted {
    let no_task = states::with(&states::power_on(), &[(place::BUSY, 1)]);
    let others = [busy_and_moving(), no_task];
    let all: Vec<u16> = (0..=u16::MAX).collect();
    let mut count = 0;
    for state in states::plain().into_iter().chain(others) {
        count += asked(sides, &state, &all)?;
    }
    Ok(count)
}

/// Asks about words, all in the same state, which is lent once: a change of it
/// shows at the word that makes it.
fn asked(sides: &Sides, state: &[u16], words: &[u16]) -> Counted {
    let mut pair = Pair::of(sides, state);
    let mut count = 0;
    for &word in words {
        count += pair.compare(state, Step::Why(word))?;
    }
    Ok(count)
}

/// Words of each kind in states of every length, right and wrong.
fn state_lengths(sides: &Sides, random: &mut Random, times: u32) -> Counted {
    let mut count = 0;
    for _ in 0..8 * times {
        for length in 0..=LONGEST_STATE {
            let numbers = states::any(random).into_iter();
            let state: Vec<u16> = numbers.cycle().take(length).collect();
            count += asked(sides, &state, &words_of_each_kind(random))?;
        }
    }
    Ok(count)
}

/// Long runs of words and ticks, with a question before each step.
fn runs(sides: &Sides, random: &mut Random, times: u32) -> Counted {
    let words = Words::new();
    let mut count = 0;
    for _ in 0..1000 * times {
        let start = states::any_start(random);
        count += run(Pair::of(sides, &start), random, &words)?;
    }
    Ok(count)
}

/// A word is asked about just before it is given; at a tick any other is.
fn run(mut pair: Pair, random: &mut Random, words: &Words) -> Counted {
    let mut before = pair.library.clone();
    let mut ticks = 0;
    for _ in 0..RUN_LENGTH {
        before.copy_from(&pair.library);
        let state = before.values();
        let step = next_step(random, words, &mut ticks, state);
        let asked = match step {
            Step::Word(word) => word,
            _ => words.likely(random, state[place::SET_WORDS]),
        };
        pair.compare(state, Step::Why(asked))?;
        pair.compare(state, step)?;
    }
    Ok(2 * RUN_LENGTH)
}
