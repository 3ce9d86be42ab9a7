//! Full lists of timed words, each given from power-on.

use compare::random::Random;
use compare::sides::List;
use compare::states;
use compare::words::Words;
use paper::list::pass;
use shabgozim::MOST_WORDS;
use std::hint::black_box;

const LISTS: usize = 32;

pub struct Lists {
    lists: Vec<TimedWords>,
    outcomes: [u16; MOST_WORDS],
}

struct TimedWords {
    words: Vec<u16>,
    ticks: Vec<u32>,
}

impl TimedWords {
    /// Words as they may come, with gaps of one to four ticks.
    fn random(words: &Words, random: &mut Random) -> TimedWords {
        let mut head = paper::power_on();
        let mut now = 0;
        let mut timed = TimedWords {
            words: Vec::new(),
            ticks: Vec::new(),
        };
        for _ in 0..MOST_WORDS {
            let word = words.likely(random, head.mirror_set.received);
            timed.words.push(word);
            timed.ticks.push(now);
            let gap = 1 + random.below(4) as u32;
            paper::word(&mut head, word);
            pass(&mut head, gap);
            now += gap;
        }
        timed
    }
}

impl Lists {
    /// Words as they may come, with gaps of one to four ticks.
    pub fn near() -> Lists {
        let words = Words::new();
        let mut random = Random::new(6);
        let lists = (0..LISTS).map(|_| TimedWords::random(&words, &mut random));
        Lists {
            lists: lists.collect(),
            outcomes: [0; MOST_WORDS],
        }
    }

    /// The same words with equal gaps.
    pub fn by_gaps_of(gap: u32) -> Lists {
        let mut lists = Lists::near();
        for timed in &mut lists.lists {
            timed.ticks = (0..MOST_WORDS as u32).map(|index| index * gap).collect();
        }
        lists
    }

    pub fn calls(&self) -> usize {
        self.lists.len()
    }

    /// Gives every list once; the sum tells that both sides give the same
    /// answers, outcomes and final states.
    pub fn pass(&mut self, list: List) -> u64 {
        let outcomes = &mut self.outcomes[..];
        let give = |timed: &TimedWords| {
            let mut state = states::power_on();
            let words = black_box(&timed.words[..]);
            let ticks = black_box(&timed.ticks[..]);
            let answer = list(
                black_box(&mut state),
                words,
                ticks,
                black_box(&mut *outcomes),
            );
            assert_eq!(answer, 0, "a list is refused");
            by_place(outcomes) + by_place(&state)
        };
        self.lists.iter().map(give).sum()
    }
}

/// The sum of numbers, each taken as often as its place says; made of narrow
/// numbers, so that it takes little of the measured time.
fn by_place(numbers: &[u16]) -> u64 {
    let pairs = numbers.iter().zip(1u16..);
    let sum: u32 = pairs
        .map(|(&number, place)| u32::from(number) * u32::from(place))
        .sum();
    sum.into()
}
