//! Demand 3: the library's words, given to the library's own head, against
//! the plan read order by order without any words.

use crate::limit_plans;
use crate::orders::{self, Order};
use crate::random::Random;
use crate::random_plans::{any_orders, late_end, many_words};
use crate::reduce::{failure, Case, Counted};
use crate::run::{Run, Schedule};
use crate::sides::{Functions, Sides};
use crate::states::{self, Numbers};
use paper::read_plan;
use std::fmt;

/// The latest end of any plan.
const LATEST_END: u32 = 4_194_240;

struct DemandCase {
    state: Numbers,
    plan: Vec<u8>,
}

impl DemandCase {
    fn new(state: Numbers, orders: &[Order]) -> DemandCase {
        let plan = orders::plan(orders);
        DemandCase { state, plan }
    }

    /// Compares the run with the reading.
    fn compare(self, sides: &Sides) -> Counted {
        match self.check(&sides.library) {
            Ok(()) => Ok(1),
            Err(_) => Err(failure(sides, self)),
        }
    }

    /// What of demand 3 does not hold.
    fn check(&self, library: &Functions) -> Result<(), String> {
        let reading = read_plan(&paper::State::from_array(&self.state), &self.plan);
        let schedule = Schedule::of(library, &self.state, &self.plan);
        let (schedule, reading) = match (schedule, reading) {
            (Ok(schedule), Ok(reading)) => (schedule, reading),
            (Err(_), Err(_)) => return Ok(()),
            (Err(refusal), Ok(_)) => return Err(format!("refused by the library: {refusal}")),
            (Ok(_), Err(refusal)) => return Err(format!("refused by the paper: {refusal:?}")),
        };
        if schedule.end > LATEST_END {
            return Err(format!("the end is {}", schedule.end));
        }
        let mut run = Run::new(library, &self.state);
        run.whole(&schedule)?;
        let found = run.settings();
        if found != reading.settings {
            return Err(format!("settings {found:?}, plan {:?}", reading.settings));
        }
        if run.log != reading.log {
            return Err(format!("log {:?}, plan {:?}", run.log, reading.log));
        }
        match run.is_busy() {
            true => Err("the head is busy at the end".into()),
            false => Ok(()),
        }
    }
}

impl Case for DemandCase {
    fn difference(&self, sides: &Sides) -> Option<String> {
        self.check(&sides.library).err()
    }

    fn shorter(&self) -> Vec<DemandCase> {
        let states = states::shorter(&self.state).into_iter();
        let states = states.filter_map(|state| state.try_into().ok());
        let nearer = states.map(|state| DemandCase {
            state,
            plan: self.plan.clone(),
        });
        let plans = orders::shorter(&self.plan).into_iter();
        let state = self.state;
        nearer
            .chain(plans.map(|plan| DemandCase { state, plan }))
            .collect()
    }
}

impl fmt::Display for DemandCase {
    fn fmt(&self, out: &mut fmt::Formatter) -> fmt::Result {
        writeln!(out, "demand 3, {}", orders::describe(&self.plan))?;
        write!(out, "from {}", states::describe(&self.state))
    }
}

fn power_on_or_idle(random: &mut Random) -> Numbers {
    match random.below(4) {
        0 => states::power_on(),
        _ => states::idle(random),
    }
}

/// Accepted plans from power-on and from idle states.
pub fn random_plans(sides: &Sides, random: &mut Random, times: u32) -> Counted {
    let mut count = 0;
    for _ in 0..3000 * times {
        let orders = match random.below(32) {
            0 => many_words(random),
            _ => any_orders(random),
        };
        let case = DemandCase::new(power_on_or_idle(random), &orders);
        count += case.compare(sides)?;
    }
    Ok(count)
}

/// Plans at the limits of translation from a state of the longest times, and
/// random ones with late ends.
pub fn at_limits(sides: &Sides, random: &mut Random, times: u32) -> Counted {
    let mut plans = limit_plans::alone();
    plans.extend(limit_plans::in_turn());
    plans.extend(limit_plans::last_after_waits());
    plans.extend(limit_plans::motions_after_waits().pop());
    plans.extend(limit_plans::exposures_after_settings());
    plans.extend(limit_plans::of_every_word_count());
    let mut count = 0;
    for orders in plans {
        count += DemandCase::new(states::longest_times(), &orders).compare(sides)?;
    }
    for _ in 0..20 * times {
        let orders = late_end(random);
        let case = DemandCase::new(power_on_or_idle(random), &orders);
        count += case.compare(sides)?;
    }
    Ok(count)
}
