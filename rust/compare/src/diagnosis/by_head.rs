//! What the library answers about a word, and what its own head does: the rule
//! is the one that the head applies, the ticks are those after which it no longer
//! does, and the mirror word that was due is the one that it takes.

use super::head_case::tried;
use crate::limit_gaps::busy_and_moving;
use crate::random::Random;
use crate::reduce::Counted;
use crate::sides::Sides;
use crate::states;
use crate::steps::words_of_each_kind;

/// Words of each kind from every limit, and all words from plain states and from
/// many of each sort.
pub fn words(sides: &Sides, random: &mut Random, times: u32) -> Counted {
    let all: Vec<u16> = (0..=u16::MAX).collect();
    let mut count = at_limits(sides, random, &states::power_on())?;
    for state in states::plain().into_iter().chain([busy_and_moving()]) {
        count += tried(sides, &state, &all)?;
    }
    for _ in 0..times {
        let base = states::in_range(random);
        count += at_limits(sides, random, &base)?;
        for _ in 0..40 {
            count += tried(sides, &states::idle(random), &all)?;
            count += tried(sides, &states::in_range(random), &all)?;
        }
        for _ in 0..4 {
            count += tried(sides, &states::damaged(random), &all)?;
            count += tried(sides, &states::arbitrary(random), &all)?;
        }
        for _ in 0..2000 {
            let state = states::in_range(random);
            count += tried(sides, &state, &words_of_each_kind(random))?;
        }
    }
    Ok(count)
}

fn at_limits(sides: &Sides, random: &mut Random, base: &states::Numbers) -> Counted {
    let mut count = 0;
    for state in states::at_limits(base) {
        count += tried(sides, &state, &words_of_each_kind(random))?;
    }
    Ok(count)
}

#[cfg(test)]
mod tests {
    use super::*;
    use shabgozim::{kind, raw};
    use std::collections::BTreeSet;

    const OF_COVER: u32 = 1 << 31;

    /// An answer without its ticks or its word.
    fn sort(answer: u32) -> u32 {
        match answer as u8 {
            22 => 22 | answer & OF_COVER,
            25 => answer,
            number => number.into(),
        }
    }

    #[test]
    fn each_rule_and_each_due_mirror_word_occurs() {
        let mut random = Random::new(1);
        let mut found = BTreeSet::new();
        for state in states::at_limits(&states::power_on()) {
            let words = words_of_each_kind(&mut random).into_iter();
            found.extend(words.map(|word| sort(raw::why(&state, word))));
        }
        let due = (kind::SIN_M..=kind::COS_L).map(|kind| 25 | u32::from(kind) << 8);
        let rules = [0, 21, 22, 22 | OF_COVER, 23, 24];
        assert_eq!(found, rules.into_iter().chain(due).collect());
    }
}
