//! Words, ticks and the other functions over a state.

use crate::random::Random;
use crate::reduce::Counted;
use crate::sides::Sides;
use crate::states;
use crate::step_case::{steps_from, Pair, Step};
use crate::words::Words;
use shabgozim::{place, STATE_LENGTH};

pub const LONGEST_STATE: usize = 2 * STATE_LENGTH + 2;
/// How many steps a run has.
pub const RUN_LENGTH: u64 = 4000;

/// All words from every limit and from many states of each sort.
pub fn words_from_states(sides: &Sides, random: &mut Random, times: u32) -> Counted {
    from_states(random, times, |state, words| {
        steps_from(sides, state, words.iter().copied().map(Step::Word))
    })
}

/// Compares from every limit and from many states of each sort: all words, and
/// some of each kind from the limits of a random state.
pub fn from_states(
    random: &mut Random,
    times: u32,
    compare: impl Fn(&[u16], &[u16]) -> Counted,
) -> Counted {
    let all: Vec<u16> = (0..=u16::MAX).collect();
    let mut count = 0;
    for state in states::at_limits(&states::power_on()) {
        count += compare(&state, &all)?;
    }
    for _ in 0..times {
        for state in states::at_limits(&states::in_range(random)) {
            count += compare(&state, &words_of_each_kind(random))?;
        }
        for _ in 0..150 {
            count += compare(&states::in_range(random), &all)?;
        }
        for _ in 0..20 {
            count += compare(&states::damaged(random), &all)?;
            count += compare(&states::arbitrary(random), &all)?;
        }
    }
    Ok(count)
}

/// Some words of each of the 64 identifiers.
pub fn words_of_each_kind(random: &mut Random) -> Vec<u16> {
    let words = (0..64).flat_map(|identifier| [identifier << 10; 8]);
    let words = words.map(|word| word | random.within(0, 0x3FF) as u16);
    words.collect()
}

/// Range, tick and power-on with every number at every place.
pub fn every_number(sides: &Sides, random: &mut Random, times: u32) -> Counted {
    let mut count = 0;
    let mut bases = vec![states::power_on()];
    bases.extend((0..2 * times).map(|_| states::in_range(random)));
    for base in bases {
        for place in 0..STATE_LENGTH {
            count += every_number_at(sides, &base, place)?;
        }
    }
    Ok(count)
}

fn every_number_at(sides: &Sides, base: &states::Numbers, place: usize) -> Counted {
    let mut state = *base;
    let mut count = 0;
    for number in 0..=u16::MAX {
        state[place] = number;
        count += steps_from(sides, &state, [Step::InRange, Step::Tick].into_iter())?;
    }
    count += steps_from(sides, &state, [Step::PowerOn].into_iter())?;
    Ok(count)
}

/// States of every length, right and wrong.
pub fn state_lengths(sides: &Sides, random: &mut Random, times: u32) -> Counted {
    let mut count = 0;
    for _ in 0..200 * times {
        for length in 0..=LONGEST_STATE {
            count += state_of_length(sides, random, length)?;
        }
    }
    Ok(count)
}

fn state_of_length(sides: &Sides, random: &mut Random, length: usize) -> Counted {
    let numbers = states::any(random);
    let state: Vec<u16> = numbers.into_iter().cycle().take(length).collect();
    let word = Step::Word(random.number());
    let steps = [Step::PowerOn, Step::InRange, word, Step::Tick];
    steps_from(sides, &state, steps.into_iter())
}

/// Long runs of words and ticks, each step compared.
pub fn runs(sides: &Sides, random: &mut Random, times: u32) -> Counted {
    let words = Words::new();
    let mut count = 0;
    for _ in 0..4000 * times {
        let start = states::any_start(random);
        count += run(Pair::of(sides, &start), random, &words)?;
    }
    Ok(count)
}

fn run(mut pair: Pair, random: &mut Random, words: &Words) -> Counted {
    let mut before = pair.library.clone();
    let mut ticks = 0;
    for _ in 0..RUN_LENGTH {
        before.copy_from(&pair.library);
        let step = next_step(random, words, &mut ticks, before.values());
        pair.compare(before.values(), step)?;
    }
    Ok(RUN_LENGTH)
}

/// A tick while any are left to pass, else a word, and new ticks to pass.
pub fn next_step(random: &mut Random, words: &Words, ticks: &mut usize, state: &[u16]) -> Step {
    if *ticks > 0 {
        *ticks -= 1;
        return Step::Tick;
    }
    *ticks = match random.below(64) {
        0 => random.below(3000),
        1..=4 => random.below(200),
        5..=31 => random.below(4),
        _ => 0,
    };
    Step::Word(words.likely(random, state[place::SET_WORDS]))
}
