//! Lists of timed words of every sort, and with something wrong.

use crate::list_case::{ComparesLists, ListCase, Lister, ROOM};
use crate::random::Random;
use crate::random_lists::RandomLists;
use crate::reduce::Counted;
use crate::sides::Sides;
use crate::states;

/// Puts something wrong into a list.
type Damage = fn(&mut Random, &mut ListCase);

const DAMAGES: [Damage; 4] = [
    |random, case| ticks_not_rising(random, &mut case.ticks),
    unequal_lengths,
    short_room,
    other_state,
];

/// Lists and states of every sort; then each with one thing wrong, or two.
pub fn timed_words(sides: &Sides, random: &mut Random, times: u32) -> Counted {
    let lists = RandomLists::new();
    let mut lister = Lister::new(sides);
    let mut count = 0;
    for _ in 0..600_000 * times {
        let mut case = lists.any(random);
        case.room = any_room(random, case.words.len());
        count += lister.compare(&case)?;
        for _ in 0..1 + random.below(2) {
            random.pick(&DAMAGES)(random, &mut case);
        }
        count += lister.compare(&case)?;
    }
    Ok(count)
}

/// Just as many places as words, one more, or many.
fn any_room(random: &mut Random, words: usize) -> usize {
    match random.below(4) {
        0 => words,
        1 => words + 1,
        _ => ROOM,
    }
}

/// One tick made equal to the one before it, or less; often the second or the
/// last.
pub fn ticks_not_rising(random: &mut Random, ticks: &mut [u32]) {
    if ticks.len() < 2 {
        return;
    }
    let place = random.within(1, ticks.len() as i32 - 1) as usize;
    let before = ticks[place - 1];
    ticks[place] = match random.below(4) {
        0 => before.saturating_sub(1),
        1 => (random.bits() % (u64::from(before) + 1)) as u32,
        _ => before,
    };
}

pub fn unequal_lengths(random: &mut Random, case: &mut ListCase) {
    let next = case.ticks.last().map_or(0, |last| last.saturating_add(1));
    match random.below(4) {
        0 => drop(case.words.pop()),
        1 => drop(case.ticks.pop()),
        2 => case.words.push(random.number()),
        _ => case.ticks.push(next),
    }
}

fn short_room(random: &mut Random, case: &mut ListCase) {
    let words = case.words.len();
    case.room = match random.below(4) {
        0 => 0,
        1 => random.below(words + 1),
        _ => words.saturating_sub(1),
    };
}

/// A state out of range, or one of a wrong length.
fn other_state(random: &mut Random, case: &mut ListCase) {
    let numbers = states::in_range(random);
    case.state = match random.below(8) {
        0 => numbers[..random.below(numbers.len())].to_vec(),
        1 => [&numbers[..], &numbers[..1]].concat(),
        2 => states::arbitrary(random).to_vec(),
        _ => states::damaged(random).to_vec(),
    };
}
