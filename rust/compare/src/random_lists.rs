//! Random lists of timed words, mostly such that runs go on.

use crate::list_case::ListCase;
use crate::random::Random;
use crate::states::{self, Numbers};
use crate::words::Words;
use paper::list::pass;
use shabgozim::MOST_WORDS;

/// How many ticks there are from a word to the next.
pub type Gap = fn(&mut Random) -> u32;

/// How many words a list may have at most, and how far apart.
const SORTS: [(usize, Gap); 8] = [
    (4, any_ticks),
    (4, some_ticks),
    (16, some_ticks),
    (4, few_ticks),
    (16, few_ticks),
    (16, next_tick),
    (64, few_ticks),
    (MOST_WORDS + 1, few_ticks),
];

/// Neighbouring ticks.
pub fn next_tick(_: &mut Random) -> u32 {
    1
}

/// One to four ticks.
pub fn few_ticks(random: &mut Random) -> u32 {
    1 + random.below(4) as u32
}

/// Mostly few ticks, at times as many as motions and tasks last, or more.
pub fn some_ticks(random: &mut Random) -> u32 {
    match random.below(8) {
        0 => random.within(1, 5000) as u32,
        1 | 2 => random.within(1, 200) as u32,
        _ => few_ticks(random),
    }
}

/// Any number of ticks; small numbers as often as large ones.
pub fn any_ticks(random: &mut Random) -> u32 {
    random.bits() as u32 >> random.below(32)
}

pub struct RandomLists {
    words: Words,
}

impl RandomLists {
    pub fn new() -> RandomLists {
        let words = Words::new();
        RandomLists { words }
    }

    /// A list of any sort for a head in a state of any sort.
    pub fn any(&self, random: &mut Random) -> ListCase {
        let state = states::any(random);
        self.any_from(random, &state)
    }

    /// A list of any sort for a head in this state.
    pub fn any_from(&self, random: &mut Random, state: &Numbers) -> ListCase {
        let (most, gap) = *random.pick(&SORTS);
        let count = random.within(0, most as i32) as usize;
        self.list(random, state, count, gap)
    }

    /// So many words for a head in this state, with rising ticks.
    pub fn list(&self, random: &mut Random, state: &Numbers, count: usize, gap: Gap) -> ListCase {
        let mut head = paper::State::from_array(state);
        let arbitrary = random.once_in(16);
        let latest = u32::MAX - count as u32;
        let (mut words, mut ticks) = (Vec::new(), Vec::new());
        let mut now: u32 = 0;
        for _ in 0..count {
            let word = match arbitrary {
                true => random.number(),
                false => self.words.likely(random, head.mirror_set.received),
            };
            words.push(word);
            ticks.push(now);
            let gap = gap(random).min(latest.saturating_sub(now)).max(1);
            paper::word(&mut head, word);
            pass(&mut head, gap);
            now += gap;
        }
        begin_anywhere(random, &mut ticks);
        ListCase::new(state, words, ticks)
    }
}

/// Moves the ticks on, often so far that the last is the last there is.
fn begin_anywhere(random: &mut Random, ticks: &mut [u32]) {
    let Some(&last) = ticks.last() else {
        return;
    };
    let most = u32::MAX - last;
    let by = match random.below(4) {
        0 => 0,
        1 => most,
        _ => most.min(any_ticks(random)),
    };
    ticks.iter_mut().for_each(|tick| *tick += by);
}

#[cfg(test)]
mod tests {
    use super::*;

    fn some_lists() -> Vec<ListCase> {
        let mut random = Random::new(1);
        let lists = RandomLists::new();
        let list = |_| lists.any_from(&mut random, &states::power_on());
        (0..2000).map(list).collect()
    }

    fn given(case: &ListCase) -> Option<Vec<u16>> {
        let mut head = paper::power_on();
        let mut outcomes = vec![0; case.words.len()];
        match paper::list(&mut head, &case.words, &case.ticks, &mut outcomes) {
            0 => Some(outcomes),
            _ => None,
        }
    }

    #[test]
    fn lists_of_up_to_256_words_are_done() {
        for case in some_lists() {
            let done = given(&case).is_some();
            assert_eq!(done, case.words.len() <= MOST_WORDS);
        }
    }

    #[test]
    fn words_are_taken_and_ignored_for_every_cause() {
        let outcomes: Vec<u16> = some_lists().iter().filter_map(given).flatten().collect();
        for outcome in [0, 1, 2, 22, 23, 24, 25] {
            let count = outcomes.iter().filter(|&&it| it == outcome).count();
            assert!(count > 100, "{outcome}: {count}");
        }
        assert!(outcomes.iter().any(|&outcome| outcome >= 0x1000));
    }

    #[test]
    fn gaps_are_of_every_size() {
        let lists = some_lists();
        let pairs = lists.iter().flat_map(|case| case.ticks.windows(2));
        let gaps: Vec<u32> = pairs.map(|pair| pair[1] - pair[0]).collect();
        for size in 0..32 {
            assert!(gaps.iter().any(|gap| gap.ilog2() == size), "{size}");
        }
        let at_end = |case: &&ListCase| case.ticks.last() == Some(&u32::MAX);
        assert!(lists.iter().filter(at_end).count() > 100);
    }
}
