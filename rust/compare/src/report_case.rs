//! The report of one plan on both sides, compared and made shorter.

use crate::buffer::{difference, Buffer};
use crate::orders;
use crate::reduce::{failure, Case, Counted};
use crate::sides::{Functions, Sides};
use crate::states;
use crate::text_form::{answers_differ, badly_formed, is_well_formed, lines_differ, written};
use shabgozim::{REPORT_LENGTH, STATE_LENGTH};
use std::fmt;

pub const MOST_ROOM: usize = REPORT_LENGTH + 1;
const LONGEST_STATE: usize = STATE_LENGTH + 1;
/// Fills that are no number of a state and no byte of a text.
const NO_NUMBER: u16 = 0xAAAA;
const NO_BYTE: u8 = 0xBB;
/// What an answer has in its upper half.
const UPPER: &str = "length or place";

/// One report: state, plan, and how many places there are for the text.
#[derive(Clone)]
pub struct ReportCase {
    pub state: Vec<u16>,
    pub plan: Vec<u8>,
    pub room: usize,
}

/// What one side may write to.
struct Lent {
    state: Buffer<u16>,
    text: Buffer<u8>,
}

/// Has both sides write reports, into buffers that are used again.
pub struct Reporter {
    sides: Sides,
    library: Lent,
    paper: Lent,
}

impl Lent {
    fn new() -> Lent {
        Lent {
            state: Buffer::filled(LONGEST_STATE, NO_NUMBER),
            text: Buffer::filled(MOST_ROOM, NO_BYTE),
        }
    }

    fn report(&mut self, side: &Functions, case: &ReportCase) -> u64 {
        self.state.refill_with(NO_NUMBER, &case.state);
        self.text.refill(NO_BYTE, case.room);
        (side.report)(self.state.lent(), &case.plan, self.text.lent())
    }
}

impl Reporter {
    pub fn new(sides: &Sides) -> Reporter {
        Reporter {
            sides: *sides,
            library: Lent::new(),
            paper: Lent::new(),
        }
    }

    fn answers(&mut self, case: &ReportCase) -> (u64, u64) {
        let answer = self.library.report(&self.sides.library, case);
        (answer, self.paper.report(&self.sides.paper, case))
    }

    /// Compares the answers and every place of state and text, and looks at
    /// the form of the lines.
    pub fn compare(&mut self, case: &ReportCase) -> Counted {
        let (answer, expected) = self.answers(case);
        let alike = answer == expected
            && self.library.text == self.paper.text
            && self.library.state == self.paper.state;
        match alike && is_well_formed(written(answer, &self.library.text)) {
            true => Ok(1),
            false => Err(failure(&self.sides, case.clone())),
        }
    }

    /// The state that the last report left.
    pub fn left(&self) -> &[u16] {
        self.library.state.values()
    }
}

impl ReportCase {
    /// With room for every report.
    pub fn new(state: &[u16], plan: Vec<u8>) -> ReportCase {
        ReportCase {
            state: state.to_vec(),
            plan,
            room: REPORT_LENGTH,
        }
    }

    fn with_state(&self, state: Vec<u16>) -> ReportCase {
        ReportCase {
            state,
            ..self.clone()
        }
    }

    fn with_plan(&self, plan: Vec<u8>) -> ReportCase {
        ReportCase {
            plan,
            ..self.clone()
        }
    }
}

impl Case for ReportCase {
    fn difference(&self, sides: &Sides) -> Option<String> {
        let mut reporter = Reporter::new(sides);
        let (answer, expected) = reporter.answers(self);
        let Reporter { library, paper, .. } = reporter;
        let text = written(answer, &library.text);
        if answer as u8 != expected as u8 {
            return answers_differ(answer, expected, UPPER);
        }
        lines_differ(text, written(expected, &paper.text))
            .or_else(|| answers_differ(answer, expected, UPPER))
            .or_else(|| difference("text", &library.text, &paper.text))
            .or_else(|| difference("state", &library.state, &paper.state))
            .or_else(|| badly_formed(text))
    }

    fn shorter(&self) -> Vec<ReportCase> {
        let mut cases = Vec::new();
        if self.room != REPORT_LENGTH {
            cases.push(ReportCase::new(&self.state, self.plan.clone()));
        }
        let states = states::shorter(&self.state).into_iter();
        cases.extend(states.map(|state| self.with_state(state)));
        let plans = orders::shorter(&self.plan).into_iter();
        cases.extend(plans.map(|plan| self.with_plan(plan)));
        cases
    }
}

impl fmt::Display for ReportCase {
    fn fmt(&self, out: &mut fmt::Formatter) -> fmt::Result {
        writeln!(out, "report, {}", orders::describe(&self.plan))?;
        writeln!(out, "from {}", states::describe(&self.state))?;
        write!(out, "with room for {} bytes", self.room)
    }
}
