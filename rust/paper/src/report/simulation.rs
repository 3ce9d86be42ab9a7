//! A head given the words of a plan, order by order.

use crate::head::{receive, Outcome};
use crate::list::pass;
use crate::plan::{orders, Order, Refusal};
use crate::reading::LoggedAct;
use crate::state::State;
use crate::translate::translate;

const MOST_WORDS: usize = 256;

/// An order, and what came of it.
pub struct Step {
    pub order: Order,
    /// The tick of its last word; a wait has none.
    pub tick: Option<u32>,
    /// What the head did, other than setting registers.
    pub act: Option<LoggedAct>,
}

pub struct Simulation {
    pub steps: Vec<Step>,
    pub words: usize,
    /// How many words the head took.
    pub taken: usize,
    pub end: u32,
    /// The head at the end.
    pub head: State,
}

impl Simulation {
    /// Gives each word of the plan at its tick to a head in this state.
    pub fn of(state: &State, plan: &[u8]) -> Result<Simulation, Refusal> {
        let mut words = [0; MOST_WORDS];
        let mut ticks = [0; MOST_WORDS];
        let done = translate(state, plan, &mut words, &mut ticks)?;
        let mut timed_words = words.into_iter().zip(ticks);
        let mut driver = Driver::new(state);
        let mut steps = Vec::new();
        for order in orders(state, plan)?.as_slice() {
            let words = timed_words.by_ref().take(order.word_count());
            steps.push(driver.step(order, words));
        }
        driver.pass_until(done.end);
        Ok(Simulation {
            steps,
            words: done.count,
            taken: driver.taken,
            end: done.end,
            head: driver.head,
        })
    }
}

struct Driver {
    head: State,
    now: u32,
    taken: usize,
}

impl Driver {
    fn new(state: &State) -> Driver {
        Driver {
            head: *state,
            now: 0,
            taken: 0,
        }
    }

    fn step(&mut self, order: &Order, words: impl Iterator<Item = (u16, u32)>) -> Step {
        let mut step = Step {
            order: *order,
            tick: None,
            act: None,
        };
        for (word, tick) in words {
            self.pass_until(tick);
            step.tick = Some(tick);
            step.act = self.give(word).or(step.act);
        }
        step
    }

    fn give(&mut self, word: u16) -> Option<LoggedAct> {
        let found = self.head.settings;
        match receive(&mut self.head, word) {
            Outcome::Taken(act) => {
                self.taken += 1;
                LoggedAct::of(act, &found)
            }
            Outcome::Ignored(_) => None,
        }
    }

    fn pass_until(&mut self, tick: u32) {
        pass(&mut self.head, tick - self.now);
        self.now = tick;
    }
}
