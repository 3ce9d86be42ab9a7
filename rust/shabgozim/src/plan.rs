//! Stored plans, translated into words and the ticks they go at.

use crate::raw;
use crate::state::State;

/// The most words a plan can give, and a list may have.
pub const MOST_WORDS: usize = 256;

/// How many words a plan gave, and its last clock.
#[derive(Clone, Copy, Debug, PartialEq, Eq)]
pub struct Translation {
    pub count: usize,
    pub end: u32,
}

/// Why and where a plan is refused.
#[derive(Clone, Copy, Debug, PartialEq, Eq)]
pub struct PlanRefusal {
    /// Document 01's number, 1 to 10.
    pub number: u8,
    /// The faulty order's length byte; 0 for 1 to 4 and 10.
    pub place: usize,
    /// For number 10: how many words the plan has; else 0.
    pub count: usize,
}

/// The timed words of a plan.
#[derive(Clone, Debug, PartialEq, Eq)]
pub struct Schedule {
    /// Each word with its tick, in order.
    pub words: Vec<(u32, u16)>,
    pub end: u32,
}

/// Translates a plan for a head in the given state. A refusal writes to
/// neither buffer; success fills the first `count` places of each.
pub fn translate(
    state: &State,
    plan: &[u8],
    words: &mut [u16],
    ticks: &mut [u32],
) -> Result<Translation, PlanRefusal> {
    let answer = raw::translate(&state.numbers, plan, words, ticks);
    let number = answer as u8;
    let count = usize::from((answer >> 8) as u16);
    let end_or_place = (answer >> 32) as u32;
    if number == 0 {
        return Ok(Translation {
            count,
            end: end_or_place,
        });
    }
    Err(PlanRefusal {
        number,
        place: end_or_place as usize,
        count,
    })
}

/// Translates a plan into a list that has room for every word.
pub fn schedule(state: &State, plan: &[u8]) -> Result<Schedule, PlanRefusal> {
    let mut words = [0; MOST_WORDS];
    let mut ticks = [0; MOST_WORDS];
    let Translation { count, end } = translate(state, plan, &mut words, &mut ticks)?;
    let timed = ticks.into_iter().zip(words).take(count);
    Ok(Schedule {
        words: timed.collect(),
        end,
    })
}
