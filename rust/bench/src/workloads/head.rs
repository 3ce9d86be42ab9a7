//! Words and ticks given to a head.

use super::{shuffle, Workload};
use compare::random::Random;
use compare::sides::Side;
use compare::states::{self, Numbers};
use compare::words::Words;
use paper::state::{MIRROR_TICKS, MOST_ACQUISITION_TICKS, MOST_COVER_TICKS};
use shabgozim::{kind, place};
use std::hint::black_box;

/// Words of every kind to an idle head, some of them refused.
pub struct GivenWords {
    state: Numbers,
    words: Vec<u16>,
}

/// The same words from both operators in turn, many of them not passed on.
pub struct PassedWords {
    given: GivenWords,
}

/// The same words, each asked about in the state that it finds.
pub struct AskedWords {
    asked: Vec<(Numbers, u16)>,
}

/// Ticks of the longest acquisition, both motions ending within it.
pub struct Ticks {
    state: Numbers,
}

/// Words and ticks as they may come.
pub struct MixedRun {
    steps: Vec<Option<u16>>,
}

impl GivenWords {
    pub fn new() -> GivenWords {
        let words = Words::new();
        let mut random = Random::new(1);
        let mut groups = Vec::new();
        for _ in 0..64 {
            groups.extend((0..kind::COUNT).map(|kind| settled(&words, &mut random, kind)));
            groups.push(vec![random.number()]);
        }
        shuffle(&mut random, &mut groups);
        GivenWords {
            state: states::power_on(),
            words: groups.concat(),
        }
    }
}

/// Words of a kind that leave the head idle and at rest: a task is stopped,
/// a mirror set is sent whole, and the cover takes no step.
fn settled(words: &Words, random: &mut Random, kind: u8) -> Vec<u16> {
    match kind {
        kind::START | kind::HK => vec![
            words.of_kind(random, kind),
            words.of_kind(random, kind::STOP),
        ],
        kind::SIN_M..=kind::COS_L => (kind::SIN_M..=kind::COS_L)
            .map(|kind| words.of_kind(random, kind))
            .collect(),
        kind::COVER => vec![words.of_kind(random, kind) & !0x7F],
        _ => vec![words.of_kind(random, kind)],
    }
}

impl Workload for GivenWords {
    fn calls(&self) -> usize {
        self.words.len()
    }

    fn pass<S: Side>(&mut self) -> u64 {
        let state = &mut self.state;
        let give = |&word| u64::from(S::word(black_box(&mut state[..]), black_box(word)));
        self.words.iter().map(give).sum()
    }
}

impl PassedWords {
    pub fn new() -> PassedWords {
        PassedWords {
            given: GivenWords::new(),
        }
    }
}

impl Workload for PassedWords {
    fn calls(&self) -> usize {
        2 * self.given.calls()
    }

    fn pass<S: Side>(&mut self) -> u64 {
        let state = &mut self.given.state;
        let mut pass = |word, operator| {
            let operator = black_box(operator);
            u64::from(S::pass_on(
                black_box(&mut state[..]),
                operator,
                black_box(word),
            ))
        };
        let words = self.given.words.iter();
        words.map(|&word| pass(word, 0) + pass(word, 1)).sum()
    }
}

impl AskedWords {
    pub fn new() -> AskedWords {
        let mut head = paper::power_on();
        let found = |word| {
            let state = head.to_array();
            paper::word(&mut head, word);
            (state, word)
        };
        let asked = GivenWords::new().words.into_iter().map(found).collect();
        AskedWords { asked }
    }
}

impl Workload for AskedWords {
    fn calls(&self) -> usize {
        self.asked.len()
    }

    fn pass<S: Side>(&mut self) -> u64 {
        let ask = |(state, word): &(Numbers, u16)| {
            u64::from(S::why(black_box(&state[..]), black_box(*word)))
        };
        self.asked.iter().map(ask).sum()
    }
}

impl Ticks {
    pub fn new() -> Ticks {
        let mut state = states::power_on();
        state[place::TASK] = 1;
        state[place::BUSY] = MOST_ACQUISITION_TICKS;
        state[place::MIRROR_MOTION] = MIRROR_TICKS;
        state[place::COVER_MOTION] = MOST_COVER_TICKS;
        state[place::IR_TIME_FLAG] = 1;
        Ticks { state }
    }
}

impl Workload for Ticks {
    fn calls(&self) -> usize {
        usize::from(self.state[place::BUSY])
    }

    fn pass<S: Side>(&mut self) -> u64 {
        let mut state = self.state;
        let mut tick = |_| u64::from(S::tick(black_box(&mut state[..])));
        (0..self.calls()).map(&mut tick).sum()
    }
}

impl MixedRun {
    pub fn new() -> MixedRun {
        let words = Words::new();
        let mut random = Random::new(2);
        let mut head = paper::power_on();
        let mut steps = Vec::new();
        while steps.len() < 4096 {
            let word = words.likely(&mut random, head.mirror_set.received);
            paper::word(&mut head, word);
            steps.push(Some(word));
            for _ in 0..random.below(3) {
                paper::tick(&mut head);
                steps.push(None);
            }
        }
        MixedRun { steps }
    }
}

impl Workload for MixedRun {
    fn calls(&self) -> usize {
        self.steps.len()
    }

    fn pass<S: Side>(&mut self) -> u64 {
        let mut state = states::power_on();
        let mut step = |step: &Option<u16>| match *step {
            Some(word) => S::word(black_box(&mut state[..]), black_box(word)),
            None => S::tick(black_box(&mut state[..])),
        };
        self.steps.iter().map(|it| u64::from(step(it))).sum()
    }
}
