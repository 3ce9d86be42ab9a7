//! Reports of plans of every sort, from power-on and from what earlier plans
//! and words left.

use crate::limit_plans;
use crate::orders::{self, MOST_ORDERS};
use crate::plans;
use crate::random::Random;
use crate::random_plans::random_orders;
use crate::reduce::Counted;
use crate::report_case::{ReportCase, Reporter, MOST_ROOM};
use crate::sides::Sides;
use crate::states::{self, longest_times, Numbers};
use crate::words::Words;
use shabgozim::{place, REPORT_LENGTH, STATE_LENGTH};

/// How many plans one head is given.
const ROW_LENGTH: usize = 8;

/// Rows of plans on one head, other states and rooms, and plans at the limits.
pub fn reports(sides: &Sides, random: &mut Random, times: u32) -> Counted {
    let words = Words::new();
    let mut reporter = Reporter::new(sides);
    let mut count = 0;
    for _ in 0..2500 * times {
        count += row(&mut reporter, random, &words)?;
    }
    for _ in 0..4000 * times {
        let (state, plan) = (any_state(random), any_plan(random));
        let mut case = ReportCase::new(&state, plan.clone());
        case.room = any_room(random, length(&state, &plan));
        count += reporter.compare(&case)?;
    }
    count += from_limits(&mut reporter, random)?;
    count += at_limits(&mut reporter)?;
    Ok(count)
}

/// States with each place at its limits and past them, and a sine of minus 0.
fn from_limits(reporter: &mut Reporter, random: &mut Random) -> Counted {
    const MINUS_ZERO: u16 = 1 << 12;
    let mut states = states::at_limits(&states::power_on());
    let mut minus_zero = states::power_on();
    minus_zero[place::SINE] = MINUS_ZERO;
    states.extend([minus_zero; 20]);
    let mut count = 0;
    for state in states {
        count += reporter.compare(&ReportCase::new(&state, any_plan(random)))?;
    }
    Ok(count)
}

fn at_limits(reporter: &mut Reporter) -> Counted {
    let mut plans = limit_plans::alone();
    plans.extend(limit_plans::in_turn());
    plans.extend(limit_plans::last_after_waits());
    plans.extend(limit_plans::motions_after_waits().pop());
    plans.extend(limit_plans::exposures_after_settings());
    plans.extend(limit_plans::of_every_word_count());
    let mut count = 0;
    for state in [states::power_on(), longest_times()] {
        for orders in &plans {
            count += reporter.compare(&ReportCase::new(&state, orders::plan(orders)))?;
        }
    }
    Ok(count)
}

/// Each plan finds the head as the plan before left it, or as some words after
/// that plan did: often with flags raised, busy or moving.
fn row(reporter: &mut Reporter, random: &mut Random, words: &Words) -> Counted {
    let mut state = match random.below(4) {
        0 => states::in_range(random),
        _ => states::power_on(),
    };
    let mut count = 0;
    for _ in 0..ROW_LENGTH {
        if random.once_in(3) {
            state = after_words(random, words, &state);
        }
        count += reporter.compare(&ReportCase::new(&state, any_plan(random)))?;
        state.copy_from_slice(reporter.left());
    }
    Ok(count)
}

/// The head after a few words, some of which it ignores.
fn after_words(random: &mut Random, words: &Words, state: &Numbers) -> Numbers {
    let mut head = paper::State::from_array(state);
    for _ in 0..random.below(6) {
        let set_words = head.to_array()[place::SET_WORDS];
        let word = match random.below(3) {
            0 => random.number(),
            _ => words.likely(random, set_words),
        };
        paper::word(&mut head, word);
        if random.once_in(2) {
            paper::tick(&mut head);
        }
    }
    head.to_array()
}

/// A plan of any sort, or one of too many orders.
fn any_plan(random: &mut Random) -> Vec<u8> {
    match random.below(32) {
        0 => orders::plan(&random_orders(random, MOST_ORDERS + 1)),
        _ => plans::any_plan(random),
    }
}

/// A state of any sort, or one of a wrong length.
fn any_state(random: &mut Random) -> Vec<u16> {
    let numbers = states::any(random);
    match random.below(16) {
        0 => numbers[..random.below(numbers.len())].to_vec(),
        1 => [&numbers[..], &numbers[..1]].concat(),
        _ => numbers.to_vec(),
    }
}

/// The length of the paper's report, 0 where there is none.
fn length(state: &[u16], plan: &[u8]) -> usize {
    let Ok(places) = <&[u16; STATE_LENGTH]>::try_from(state) else {
        return 0;
    };
    let report = paper::report(&mut paper::State::from_array(places), plan);
    report.map_or(0, |report| report.len())
}

/// Just enough, one byte less or more, or any other.
fn any_room(random: &mut Random, length: usize) -> usize {
    match random.below(8) {
        0 => length,
        1 => length.saturating_sub(1),
        2 => length + 1,
        3 => random.below(length + 1),
        4 => MOST_ROOM,
        _ => REPORT_LENGTH,
    }
}
