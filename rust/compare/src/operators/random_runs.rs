//! Random runs with words of the two operators and of the controller, mostly
//! such that tasks end in them.

use super::run_case::{give, RunCase};
use crate::random::Random;
use crate::states::{self, Numbers};
use crate::words::Words;
use paper::state::{LEAST_CCD_DELAY, TASK_ACQUISITION};
use paper::words::KINDS;
use paper::{Given, Group, State, Tick};
use shabgozim::{kind, place};

/// START, HK, STOP and NOP, some more often than others.
const CONTROLLER_KINDS: [u8; 8] = [
    kind::START,
    kind::START,
    kind::START,
    kind::HK,
    kind::HK,
    kind::STOP,
    kind::STOP,
    kind::NOP,
];
/// How long an acquisition is on its way at most, where it ends soon.
const SOON: i32 = 40;

pub struct RandomRuns {
    words: Words,
    ccd_kinds: Vec<u8>,
    infrared_kinds: Vec<u8>,
}

impl RandomRuns {
    pub fn new() -> RandomRuns {
        let kinds = |group| {
            let kinds = KINDS.into_iter().filter(|&kind| Group::of(kind) == group);
            kinds.map(|kind| kind.index()).collect()
        };
        RandomRuns {
            words: Words::new(),
            ccd_kinds: kinds(Group::Ccd),
            infrared_kinds: kinds(Group::Infrared),
        }
    }

    /// A run of up to some hundred ticks from a state in range.
    pub fn any(&self, random: &mut Random) -> RunCase {
        let state = state(random);
        let ticks = match random.below(4) {
            0 => random.within(1, 8),
            1 => random.within(1, 40),
            _ => random.within(150, 400),
        };
        let apart = *random.pick(&[1, 2, 8, 32]);
        let mut head = State::from_array(&state);
        let mut tick = || {
            let given = match random.once_in(apart) {
                true => self.given(random, head.mirror_set.received),
                false => Given::Nothing,
            };
            give(&mut head, given);
            paper::tick(&mut head);
            let vis_latch_up = random.once_in(2);
            Tick {
                given,
                vis_latch_up,
            }
        };
        let run = (0..ticks).map(|_| tick()).collect();
        RunCase { state, run }
    }

    /// A word by any of the three, at times one that is another's or no one's.
    fn given(&self, random: &mut Random, begun: u16) -> Given {
        let party = random.below(3);
        let word = match (random.below(8), party) {
            (0, _) => self.words.likely(random, begun),
            (_, 0) => self.ccd(random),
            (_, 1) => self.infrared(random, begun),
            _ => {
                let kind = *random.pick(&CONTROLLER_KINDS);
                self.words.of_kind(random, kind)
            }
        };
        match party {
            0 => Given::ByCcd(word),
            1 => Given::ByInfrared(word),
            _ => Given::ByController(word),
        }
    }

    fn ccd(&self, random: &mut Random) -> u16 {
        let kind = *random.pick(&self.ccd_kinds);
        self.of_kind(random, kind)
    }

    /// A word by the infrared operator, for a head that has so many words of a
    /// mirror set; at times one that is another's or no one's.
    pub fn infrared(&self, random: &mut Random, begun: u16) -> u16 {
        match random.below(8) {
            0 => self.words.likely(random, begun),
            1 | 2 => self.words.next_mirror_word(random, begun),
            _ => {
                let kind = *random.pick(&self.infrared_kinds);
                self.of_kind(random, kind)
            }
        }
    }

    /// A word of this kind; mostly one that leaves acquisitions short.
    fn of_kind(&self, random: &mut Random, kind: u8) -> u16 {
        let sets_time = [
            kind::IR_DELAY,
            kind::IR_EXPO,
            kind::CCD_DELAY,
            kind::CCD_EXPO,
        ];
        match sets_time.contains(&kind) && !random.once_in(8) {
            true => self.words.least(random, kind),
            false => self.words.of_kind(random, kind),
        }
    }
}

/// A state in range; mostly acquisitions are short and a task ends soon.
pub fn state(random: &mut Random) -> Numbers {
    let mut state = states::in_range(random);
    if random.once_in(4) {
        return state;
    }
    let mut few = |least: u16| least + random.below(3) as u16;
    state[place::IR_DELAY] = few(0);
    state[place::IR_EXPO] = few(0);
    state[place::CCD_DELAY] = few(LEAST_CCD_DELAY);
    state[place::CCD_EXPO] = few(0);
    if state[place::TASK] == TASK_ACQUISITION {
        state[place::BUSY] = random.within(1, SOON) as u16;
    }
    state
}

#[cfg(test)]
mod tests {
    use super::*;
    use paper::observe;

    #[test]
    fn tasks_end_in_most_runs() {
        let (mut random, runs) = (Random::new(1), RandomRuns::new());
        let ends = |case: &RunCase| {
            let observed = observe(&State::from_array(&case.state), &case.run);
            let blocks = observed.ticks.iter().filter_map(|seen| seen.vis_flags);
            blocks.count()
        };
        let cases: Vec<RunCase> = (0..500).map(|_| runs.any(&mut random)).collect();
        let with_ends = cases.iter().filter(|case| ends(case) > 0).count();
        assert!(with_ends > 300, "{with_ends}");
    }

    #[test]
    fn words_of_each_party_are_given_at_any_time() {
        let (mut random, runs) = (Random::new(1), RandomRuns::new());
        let mut counts = [[0; 2]; 3];
        for _ in 0..500 {
            let RunCase { state, run } = runs.any(&mut random);
            let busy = paper::busy_ticks(&State::from_array(&state), &run);
            for (tick, busy) in run.iter().zip(busy.ticks) {
                match tick.given {
                    Given::Nothing => {}
                    Given::ByCcd(_) => counts[0][usize::from(busy)] += 1,
                    Given::ByInfrared(_) => counts[1][usize::from(busy)] += 1,
                    Given::ByController(_) => counts[2][usize::from(busy)] += 1,
                }
            }
        }
        assert!(
            counts.iter().flatten().all(|&count| count > 1000),
            "{counts:?}"
        );
    }
}
