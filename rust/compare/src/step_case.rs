//! One call over a state on both sides, compared and made shorter.

use crate::buffer::{difference, Buffer};
use crate::reduce::{failure, Case, Counted};
use crate::sides::{Functions, Sides};
use crate::states;
use std::fmt;

const MARGIN: u16 = 0xAAAA;
/// The least number of no operator.
const NO_OPERATOR: u8 = 2;

/// One call over a state.
#[derive(Clone, Copy, Debug, PartialEq, Eq)]
pub enum Step {
    PowerOn,
    InRange,
    Word(u16),
    Tick,
    /// An operator's number, and a word for the controller to pass on.
    PassOn(u8, u16),
    /// A word that is asked about and not given.
    Why(u16),
}

/// One step from one state.
struct StepCase {
    state: Vec<u16>,
    step: Step,
}

/// The same state lent to each side.
pub struct Pair {
    sides: Sides,
    pub library: Buffer<u16>,
    paper: Buffer<u16>,
}

impl Step {
    fn make(self, side: &Functions, state: &mut [u16]) -> u32 {
        match self {
            Step::PowerOn => (side.power_on)(state),
            Step::InRange => (side.in_range)(state),
            Step::Word(word) => (side.word)(state, word),
            Step::Tick => (side.tick)(state),
            Step::PassOn(operator, word) => (side.pass_on)(state, operator, word),
            Step::Why(word) => (side.why)(state, word),
        }
    }

    /// The same step with a word of less data, or by a lesser operator.
    fn shorter(self) -> Vec<Step> {
        match self {
            Step::Word(word) => less_data(word).into_iter().map(Step::Word).collect(),
            Step::Why(word) => less_data(word).into_iter().map(Step::Why).collect(),
            Step::PassOn(operator, word) => {
                let words = less_data(word).into_iter();
                let words = words.map(|word| Step::PassOn(operator, word));
                let lesser = (operator > NO_OPERATOR).then_some(Step::PassOn(NO_OPERATOR, word));
                words.chain(lesser).collect()
            }
            Step::PowerOn | Step::InRange | Step::Tick => Vec::new(),
        }
    }
}

/// Words of the same identifier with less data.
pub fn less_data(word: u16) -> Vec<u16> {
    let (identifier, data) = (word & 0xFC00, word & 0x03FF);
    let less = [0, data / 2, data.saturating_sub(1)];
    let less = less.into_iter().filter(|&less| less < data);
    less.map(|less| identifier | less).collect()
}

impl Pair {
    pub fn of(sides: &Sides, state: &[u16]) -> Pair {
        let library = Buffer::holding(state, MARGIN);
        let paper = library.clone();
        Pair {
            sides: *sides,
            library,
            paper,
        }
    }

    fn reset(&mut self, state: &Buffer<u16>) {
        self.library.copy_from(state);
        self.paper.copy_from(state);
    }

    /// Makes the step on both sides; gives both answers.
    fn answers(&mut self, step: Step) -> (u32, u32) {
        let answer = step.make(&self.sides.library, self.library.lent());
        (answer, step.make(&self.sides.paper, self.paper.lent()))
    }

    /// Makes the step on both sides; whether answer and every place agree.
    fn agree(&mut self, step: Step) -> bool {
        let (answer, expected) = self.answers(step);
        answer == expected && self.library == self.paper
    }

    /// Compares a step from this state, which both sides hold.
    pub fn compare(&mut self, state: &[u16], step: Step) -> Counted {
        if self.agree(step) {
            return Ok(1);
        }
        let state = state.to_vec();
        Err(failure(&self.sides, StepCase { state, step }))
    }
}

impl Case for StepCase {
    fn difference(&self, sides: &Sides) -> Option<String> {
        let mut pair = Pair::of(sides, &self.state);
        let (answer, expected) = pair.answers(self.step);
        if answer != expected {
            return Some(format!("answer: library {answer:#X}, paper {expected:#X}"));
        }
        difference("state", &pair.library, &pair.paper)
    }

    fn shorter(&self) -> Vec<StepCase> {
        let step = self.step;
        let states = states::shorter_or_sooner(&self.state).into_iter();
        let nearer = states.map(|state| StepCase { state, step });
        let steps = step.shorter().into_iter();
        let lesser = steps.map(|step| StepCase {
            state: self.state.clone(),
            step,
        });
        nearer.chain(lesser).collect()
    }
}

impl fmt::Display for StepCase {
    fn fmt(&self, out: &mut fmt::Formatter) -> fmt::Result {
        let state = states::describe(&self.state);
        match self.step {
            Step::Word(word) => write!(out, "word {word:04X} from {state}"),
            Step::Why(word) => write!(out, "why word {word:04X} from {state}"),
            Step::PassOn(operator, word) => {
                write!(out, "word {word:04X} by operator {operator} from {state}")
            }
            step => write!(out, "{step:?} from {state}"),
        }
    }
}

/// Compares some steps, each from the same state.
pub fn steps_from(sides: &Sides, state: &[u16], steps: impl Iterator<Item = Step>) -> Counted {
    let given = Buffer::holding(state, MARGIN);
    let mut pair = Pair::of(sides, state);
    let mut count = 0;
    for step in steps {
        pair.reset(&given);
        count += pair.compare(state, step)?;
    }
    Ok(count)
}
