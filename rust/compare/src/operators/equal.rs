//! Request P6's demand tried on the library's side: two runs that differ in what
//! is infrared give the CCD operator the same observation, where the head is busy
//! at the same ticks.

use super::pair_case::{common_places, PairCase, PairTick};
use super::random_runs::{state, RandomRuns};
use super::run_case::RunCase;
use super::watched::Watched;
use crate::random::Random;
use crate::reduce::{failure, Counted, Failure};
use crate::sides::Sides;
use crate::states::Numbers;
use paper::state::TASK_NONE;
use paper::{Given, Tick};
use shabgozim::place;

pub fn pairs(sides: &Sides, random: &mut Random, times: u32) -> Counted {
    so_many(sides, random, 20_000 * times)
}

/// So many random pairs of runs. Of those with the same busy ticks it counts the
/// ones whose infrared words differ and in which a task ends.
fn so_many(sides: &Sides, random: &mut Random, pairs: u32) -> Counted {
    let runs = RandomRuns::new();
    let mut count = 0;
    for _ in 0..pairs {
        let case = pair(&runs, random);
        let Some([first, second]) = case.watched(&sides.library) else {
            continue;
        };
        if first != second {
            return Err(failure(sides, case));
        }
        count += u64::from(case.differs_in_words() && ends_a_task(&first));
    }
    match count {
        0 => Err(Failure("no two runs differ and end a task".into())),
        _ => Ok(count),
    }
}

fn ends_a_task(watched: &Watched) -> bool {
    watched.ticks.iter().any(|seen| seen.flag_word.is_some())
}

/// A run, and another that differs from it in what is infrared.
fn pair(runs: &RandomRuns, random: &mut Random) -> PairCase {
    let RunCase { state, run } = runs.any(random);
    let other = other_state(random, &state);
    let ticks = run.iter().map(|tick| pair_tick(runs, random, tick));
    PairCase {
        ticks: ticks.collect(),
        states: [state, other],
    }
}

/// A state that is the same in what must be the same, and mostly as long busy.
fn other_state(random: &mut Random, first: &Numbers) -> Numbers {
    let mut other = state(random);
    let same_task = other[place::TASK] == first[place::TASK];
    common_places().for_each(|at| other[at] = first[at]);
    if first[place::TASK] == TASK_NONE || !same_task || !random.once_in(4) {
        other[place::BUSY] = first[place::BUSY];
    }
    other
}

/// The infrared word of the second run is the same, none, or another; at times
/// there is one where the first run has none.
fn pair_tick(runs: &RandomRuns, random: &mut Random, first: &Tick) -> PairTick {
    let begun = random.below(4) as u16;
    let (common, infrared) = match first.given {
        Given::ByInfrared(word) => match random.below(4) {
            0 => (Given::Nothing, [Some(word); 2]),
            1 => (Given::Nothing, [Some(word), None]),
            _ => {
                let other = runs.infrared(random, begun);
                (Given::Nothing, [Some(word), Some(other)])
            }
        },
        Given::Nothing if random.once_in(16) => {
            let other = runs.infrared(random, begun);
            (Given::Nothing, [None, Some(other)])
        }
        common => (common, [None; 2]),
    };
    PairTick {
        common,
        infrared,
        vis_latch_up: first.vis_latch_up,
    }
}

#[cfg(test)]
mod tests {
    use super::*;

    #[test]
    fn many_pairs_tell_something() {
        let count = so_many(&Sides::LIBRARY_AND_PAPER, &mut Random::new(1), 1000);
        let count = count.expect("no difference");
        assert!(count > 300, "{count}");
    }
}
