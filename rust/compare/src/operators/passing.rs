//! Words of the operators, passed on to the head or not: the answer and every
//! place of the state.

use crate::random::Random;
use crate::reduce::Counted;
use crate::sides::Sides;
use crate::states::{self, Numbers};
use crate::step_case::{steps_from, Pair, Step};
use crate::steps::words_of_each_kind;
use crate::words::Words;
use paper::operators::{CCD_OPERATOR, INFRARED_OPERATOR};
use shabgozim::{place, STATE_LENGTH};

const OPERATORS: [u8; 2] = [CCD_OPERATOR, INFRARED_OPERATOR];
/// The operators, the number of the controller's group, that of no group, and the
/// greatest.
const NUMBERS: [u8; 5] = [CCD_OPERATOR, INFRARED_OPERATOR, 2, 3, u8::MAX];
/// Lengths of a state about the right one.
const LENGTHS: [usize; 5] = [0, 1, STATE_LENGTH - 1, STATE_LENGTH + 1, 2 * STATE_LENGTH];
/// How many steps a run has.
const RUN_LENGTH: u64 = 4000;

/// All words from states of every sort, some of them from every limit and from
/// states of wrong lengths; and runs.
pub fn words(sides: &Sides, random: &mut Random, times: u32) -> Counted {
    let mut count = wrong_lengths(sides, random, times)?;
    count += every_operator(sides, random)?;
    count += at_limits(sides, random, &states::power_on())?;
    for state in states::plain() {
        count += all_words(sides, &state, &NUMBERS)?;
    }
    for _ in 0..times {
        let base = states::in_range(random);
        count += at_limits(sides, random, &base)?;
        for _ in 0..40 {
            count += all_words(sides, &states::idle(random), &OPERATORS)?;
            count += all_words(sides, &states::in_range(random), &OPERATORS)?;
        }
        for _ in 0..4 {
            count += all_words(sides, &states::damaged(random), &OPERATORS)?;
            count += all_words(sides, &states::arbitrary(random), &OPERATORS)?;
        }
    }
    Ok(count + runs(sides, random, times)?)
}

/// Every word by each of these numbers.
fn all_words(sides: &Sides, state: &[u16], numbers: &[u8]) -> Counted {
    let mut count = 0;
    for &number in numbers {
        let words = 0..=u16::MAX;
        count += steps_from(sides, state, words.map(|word| Step::PassOn(number, word)))?;
    }
    Ok(count)
}

/// Words of each kind, each by one of the numbers.
fn some_words(sides: &Sides, random: &mut Random, state: &[u16]) -> Counted {
    let words = words_of_each_kind(random).into_iter();
    let steps = words.map(|word| Step::PassOn(*random.pick(&NUMBERS), word));
    steps_from(sides, state, steps)
}

/// Words of each kind, each by every number.
fn every_operator(sides: &Sides, random: &mut Random) -> Counted {
    let mut count = 0;
    for number in 0..=u8::MAX {
        let words = words_of_each_kind(random).into_iter();
        let steps = words.map(|word| Step::PassOn(number, word));
        count += steps_from(sides, &states::power_on(), steps)?;
    }
    Ok(count)
}

/// From the state with each number at its limits and past them.
fn at_limits(sides: &Sides, random: &mut Random, base: &Numbers) -> Counted {
    let mut count = 0;
    for state in states::at_limits(base) {
        count += some_words(sides, random, &state)?;
    }
    Ok(count)
}

/// From states that lack places or have too many.
fn wrong_lengths(sides: &Sides, random: &mut Random, times: u32) -> Counted {
    let mut count = 0;
    for length in LENGTHS {
        for _ in 0..20 * times {
            let numbers = states::any(random).into_iter();
            let state: Vec<u16> = numbers.cycle().take(length).collect();
            count += some_words(sides, random, &state)?;
        }
    }
    Ok(count)
}

/// Long runs of words by all three parties and ticks, each step compared.
fn runs(sides: &Sides, random: &mut Random, times: u32) -> Counted {
    let words = Words::new();
    let mut count = 0;
    for _ in 0..400 * times {
        let start = states::any_start(random);
        count += run(Pair::of(sides, &start), random, &words)?;
    }
    Ok(count)
}

fn run(mut pair: Pair, random: &mut Random, words: &Words) -> Counted {
    let mut before = pair.library.clone();
    for _ in 0..RUN_LENGTH {
        before.copy_from(&pair.library);
        let step = next_step(random, words, before.values());
        pair.compare(before.values(), step)?;
    }
    Ok(RUN_LENGTH)
}

/// Mostly a word by an operator.
fn next_step(random: &mut Random, words: &Words, state: &[u16]) -> Step {
    let word = words.likely(random, state[place::SET_WORDS]);
    match random.below(8) {
        0 => Step::Tick,
        1 => Step::Word(word),
        2 => Step::PassOn(*random.pick(&NUMBERS), word),
        _ => Step::PassOn(*random.pick(&OPERATORS), word),
    }
}
