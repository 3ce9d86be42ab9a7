//! A word of a list, given to the head.

use crate::head::{receive, Act, Cause, Outcome};
use crate::list::{gaps, pass};
use crate::state::{power_on, State};
use crate::words::{decode, Kind};

/// The line of the first word; the title has the first line.
const FIRST_LINE: usize = 2;

/// A word, and the head before and after it.
pub struct Step {
    pub line: usize,
    pub tick: u32,
    pub word: u16,
    pub before: State,
    pub after: State,
    pub outcome: Outcome,
}

/// Every word of a list given to a head at power-on, and the head at the end.
pub fn steps(words: &[u16], ticks: &[u32]) -> (Vec<Step>, State) {
    let mut head = power_on();
    let mut steps = Vec::new();
    let timed = words.iter().zip(ticks).zip(gaps(ticks));
    for (((&word, &tick), gap), line) in timed.zip(FIRST_LINE..) {
        let before = head;
        let outcome = receive(&mut head, word);
        let after = head;
        steps.push(Step {
            line,
            tick,
            word,
            before,
            after,
            outcome,
        });
        pass(&mut head, gap);
    }
    (steps, head)
}

impl Step {
    pub fn is_exposure(&self) -> bool {
        self.outcome == Outcome::Taken(Act::Exposure)
    }

    /// Why the word was ignored, if it was.
    pub fn cause(&self) -> Option<Cause> {
        match self.outcome {
            Outcome::Taken(_) => None,
            Outcome::Ignored(cause) => Some(cause),
        }
    }

    pub fn outcome_text(&self) -> String {
        match self.cause() {
            None => String::from("taken"),
            Some(cause) => format!("ignored {}", cause.number()),
        }
    }

    /// The kind by the identifier alone.
    pub fn kind(&self) -> Option<Kind> {
        decode(self.word).kind()
    }
}
