//! One translation on both sides, compared and made shorter.

use crate::buffer::{difference, Buffer};
use crate::orders;
use crate::plan_answer::PlanAnswer;
use crate::reduce::{failure, Case, Counted};
use crate::sides::{Functions, Sides};
use crate::states;
use shabgozim::MOST_WORDS;
use std::fmt;

/// Longer than any list can be.
pub const ROOM: usize = 300;
/// Fills that are no word and no tick.
const NO_WORD: u16 = 0xAAAA;
const NO_TICK: u32 = 0xBBBB_BBBB;

/// One translation: state, plan and the lengths of both buffers.
#[derive(Clone)]
pub struct PlanCase {
    pub state: Vec<u16>,
    pub plan: Vec<u8>,
    pub words: usize,
    pub ticks: usize,
}

/// The buffers of one side.
struct Lists {
    words: Buffer<u16>,
    ticks: Buffer<u32>,
}

/// Translates on both sides, into buffers that are used again.
pub struct Translator {
    sides: Sides,
    library: Lists,
    paper: Lists,
}

impl Lists {
    fn new(room: usize) -> Lists {
        Lists {
            words: Buffer::filled(room, NO_WORD),
            ticks: Buffer::filled(room, NO_TICK),
        }
    }

    fn translate(&mut self, side: &Functions, case: &PlanCase) -> u64 {
        self.words.refill(NO_WORD, case.words);
        self.ticks.refill(NO_TICK, case.ticks);
        (side.translate)(
            &case.state,
            &case.plan,
            self.words.lent(),
            self.ticks.lent(),
        )
    }
}

impl Translator {
    pub fn new(sides: &Sides) -> Translator {
        Translator::with_room(sides, ROOM)
    }

    /// For buffers of up to so many places.
    pub fn with_room(sides: &Sides, room: usize) -> Translator {
        Translator {
            sides: *sides,
            library: Lists::new(room),
            paper: Lists::new(room),
        }
    }

    /// How many words the plan has, as either side says; 0 where both refuse
    /// it, and never more than a plan can have.
    pub fn words_needed(&mut self, case: &PlanCase) -> usize {
        let (answer, expected) = self.answers(case);
        let count = |answer| PlanAnswer::of(answer).count.min(MOST_WORDS);
        count(answer).max(count(expected))
    }

    fn answers(&mut self, case: &PlanCase) -> (u64, u64) {
        let answer = self.library.translate(&self.sides.library, case);
        (answer, self.paper.translate(&self.sides.paper, case))
    }

    /// Compares the answers and every place of both buffers.
    pub fn compare(&mut self, case: &PlanCase) -> Counted {
        let (answer, expected) = self.answers(case);
        let alike = answer == expected
            && self.library.words == self.paper.words
            && self.library.ticks == self.paper.ticks;
        match alike {
            true => Ok(1),
            false => Err(failure(&self.sides, case.clone())),
        }
    }
}

impl PlanCase {
    /// With room for every word.
    pub fn new(state: &[u16], plan: Vec<u8>) -> PlanCase {
        PlanCase {
            state: state.to_vec(),
            plan,
            words: ROOM,
            ticks: ROOM,
        }
    }

    pub fn from_power_on(plan: Vec<u8>) -> PlanCase {
        PlanCase::new(&states::power_on(), plan)
    }

    pub fn with_plan(&self, plan: Vec<u8>) -> PlanCase {
        PlanCase {
            plan,
            ..self.clone()
        }
    }

    pub fn with_state(&self, state: Vec<u16>) -> PlanCase {
        PlanCase {
            state,
            ..self.clone()
        }
    }
}

impl Case for PlanCase {
    fn difference(&self, sides: &Sides) -> Option<String> {
        let room = ROOM.max(self.words).max(self.ticks);
        let mut translator = Translator::with_room(sides, room);
        let (answer, expected) = translator.answers(self);
        if answer != expected {
            let (answer, expected) = (PlanAnswer::of(answer), PlanAnswer::of(expected));
            return Some(format!("answer: library {answer}, paper {expected}"));
        }
        let Translator { library, paper, .. } = translator;
        difference("words", &library.words, &paper.words).or(difference(
            "ticks",
            &library.ticks,
            &paper.ticks,
        ))
    }

    fn shorter(&self) -> Vec<PlanCase> {
        let mut cases = Vec::new();
        if self.words != ROOM || self.ticks != ROOM {
            cases.push(PlanCase::new(&self.state, self.plan.clone()));
        }
        let states = states::shorter(&self.state).into_iter();
        cases.extend(states.map(|state| self.with_state(state)));
        let plans = orders::shorter(&self.plan).into_iter();
        cases.extend(plans.map(|plan| self.with_plan(plan)));
        cases
    }
}

impl fmt::Display for PlanCase {
    fn fmt(&self, out: &mut fmt::Formatter) -> fmt::Result {
        writeln!(out, "{}", orders::describe(&self.plan))?;
        writeln!(out, "from {}", states::describe(&self.state))?;
        let (words, ticks) = (self.words, self.ticks);
        write!(out, "with room for {words} words and {ticks} ticks")
    }
}
