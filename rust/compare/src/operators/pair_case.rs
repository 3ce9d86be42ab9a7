//! Two runs on the library's side that differ in what is infrared: the CCD
//! operator must observe the same of both.

use super::run_case::{bit, left, named};
use super::watched::{Watched, REGISTERS};
use crate::reduce::Case;
use crate::shorter_lists::parts;
use crate::sides::{Functions, Sides};
use crate::states::{self, power_on, Numbers, COUNTS, SOONER};
use crate::step_case::less_data;
use paper::{Given, State, Tick};
use shabgozim::place;
use std::fmt;

/// What comes at a tick of both runs.
#[derive(Clone, Copy, PartialEq, Eq)]
pub struct PairTick {
    /// The word of the CCD operator or of the controller, if there is one.
    pub common: Given,
    /// Without such a word: the infrared word of each run, if there is one.
    pub infrared: [Option<u16>; 2],
    pub vis_latch_up: bool,
}

/// The states and the ticks of two runs.
#[derive(Clone)]
pub struct PairCase {
    pub states: [Numbers; 2],
    pub ticks: Vec<PairTick>,
}

impl PairTick {
    fn given(&self, run: usize) -> Given {
        match (self.common, self.infrared[run]) {
            (Given::Nothing, Some(word)) => Given::ByInfrared(word),
            (common, _) => common,
        }
    }

    /// Without its word or words, with a word of less data, or without the bit.
    fn plainer(&self) -> Vec<PairTick> {
        let mut ticks = Vec::new();
        if self.common != Given::Nothing || self.vis_latch_up {
            ticks.push(PairTick {
                common: Given::Nothing,
                infrared: [None; 2],
                ..*self
            });
            ticks.push(PairTick {
                vis_latch_up: false,
                ..*self
            });
        }
        for run in 0..2 {
            let lesser = self.infrared[run].into_iter().flat_map(less_data);
            let lesser = lesser.map(Some).chain([None]);
            ticks.extend(lesser.map(|word| {
                let mut plainer = *self;
                plainer.infrared[run] = word;
                plainer
            }));
        }
        ticks.retain(|tick| tick != self);
        ticks
    }
}

impl PairCase {
    /// The ticks of one of the runs.
    fn run(&self, run: usize) -> Vec<Tick> {
        let ticks = self.ticks.iter().map(|tick| Tick {
            given: tick.given(run),
            vis_latch_up: tick.vis_latch_up,
        });
        ticks.collect()
    }

    /// What is observed of the two runs, if they are of the sort of which the
    /// same must be observed.
    pub fn watched(&self, library: &Functions) -> Option<[Watched; 2]> {
        let [first, second] =
            [0, 1].map(|run| Watched::by_calls(library, &self.states[run], &self.run(run)));
        (begin_alike(&self.states) && first.is_as_busy_as(&second)).then_some([first, second])
    }

    /// Whether the infrared words of the two runs differ.
    pub fn differs_in_words(&self) -> bool {
        let differs = |tick: &PairTick| tick.given(0) != tick.given(1);
        self.ticks.iter().any(differs)
    }

    /// Without the first ticks, from the states that they leave.
    fn later(&self, ticks: usize) -> PairCase {
        let (first, rest) = self.ticks.split_at(ticks);
        let left = |run: usize| left(&self.states[run], first.iter().map(|tick| tick.given(run)));
        PairCase {
            states: [left(0), left(1)],
            ticks: rest.to_vec(),
        }
    }

    fn with_ticks(&self, ticks: Vec<PairTick>) -> PairCase {
        PairCase {
            states: self.states,
            ticks,
        }
    }

    /// Fewer ticks.
    fn fewer(&self) -> Vec<PairCase> {
        let length = self.ticks.len();
        let later = [length / 2, 1].into_iter();
        let later = later.filter(|ticks| (1..=length).contains(ticks));
        let mut cases: Vec<PairCase> = later.map(|ticks| self.later(ticks)).collect();
        cases.extend(parts(length).into_iter().map(|part| {
            let (before, after) = (&self.ticks[..part.start], &self.ticks[part.end..]);
            self.with_ticks([before, after].concat())
        }));
        cases
    }

    fn with_plainer_ticks(&self) -> Vec<PairCase> {
        let mut cases = Vec::new();
        for (at, tick) in self.ticks.iter().enumerate() {
            for plainer in tick.plainer() {
                let mut ticks = self.ticks.clone();
                ticks[at] = plainer;
                cases.push(self.with_ticks(ticks));
            }
        }
        cases
    }

    /// With both states changed, or one of them.
    fn with_states(&self, change: impl Fn(&mut Numbers)) -> Vec<PairCase> {
        let changed = |runs: &[usize]| {
            let mut case = self.clone();
            runs.iter().for_each(|&run| change(&mut case.states[run]));
            case
        };
        let cases = [&[0, 1][..], &[0], &[1]].map(changed).into_iter();
        cases.filter(|case| case.states != self.states).collect()
    }

    /// With places as after power-on, or tasks and motions that end sooner.
    fn with_nearer_states(&self) -> Vec<PairCase> {
        let mut cases = Vec::new();
        for group in states::groups() {
            cases.extend(self.with_states(|state| {
                group.iter().for_each(|&at| state[at] = power_on()[at]);
            }));
        }
        for at in COUNTS {
            for sooner in SOONER {
                cases.extend(self.with_states(|state| state[at] = sooner(state[at])));
            }
        }
        cases
    }
}

/// Whether states are in range and have the same CCD registers, VIS flags and
/// task.
fn begin_alike(states: &[Numbers; 2]) -> bool {
    let in_range = |state: &Numbers| paper::in_range(&State::from_array(state));
    let [first, second] = states;
    states.iter().all(in_range) && common_places().all(|at| first[at] == second[at])
}

/// Where two states have the same numbers.
pub fn common_places() -> impl Iterator<Item = usize> {
    let others = [place::VIS_TIME_FLAG, place::VIS_WORD_FLAG, place::TASK];
    REGISTERS.into_iter().chain(others)
}

impl Case for PairCase {
    fn difference(&self, sides: &Sides) -> Option<String> {
        let [first, second] = self.watched(&sides.library)?;
        first.difference(&second, ["first", "second"])
    }

    fn shorter(&self) -> Vec<PairCase> {
        let mut cases = self.fewer();
        cases.extend(self.with_plainer_ticks());
        cases.extend(self.with_nearer_states());
        cases
    }
}

impl fmt::Display for PairCase {
    fn fmt(&self, out: &mut fmt::Formatter) -> fmt::Result {
        let [first, second] = &self.states;
        writeln!(out, "first run from {}", states::describe(first))?;
        writeln!(out, "second run from {}", states::describe(second))?;
        write!(out, "ticks")?;
        for tick in &self.ticks {
            let given = match [tick.given(0), tick.given(1)] {
                [first, second] if first == second => named(first),
                [first, second] => format!("{} or {}", named(first), named(second)),
            };
            write!(out, " [{given}{}]", bit(tick.vis_latch_up))?;
        }
        Ok(())
    }
}
