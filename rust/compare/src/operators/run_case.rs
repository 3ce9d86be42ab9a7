//! The CCD operator's observation of one run on both sides, compared and made
//! shorter.

use super::watched::Watched;
use crate::reduce::{failure, Case, Counted};
use crate::shorter_lists::parts;
use crate::sides::Sides;
use crate::states::{self, Numbers};
use crate::step_case::less_data;
use paper::operators::{CCD_OPERATOR, INFRARED_OPERATOR};
use paper::{Given, State, Tick};
use std::fmt;

/// A state, and what comes at each tick.
#[derive(Clone)]
pub struct RunCase {
    pub state: Numbers,
    pub run: Vec<Tick>,
}

impl RunCase {
    fn answers(&self, sides: &Sides) -> [Watched; 2] {
        [
            Watched::by_calls(&sides.library, &self.state, &self.run),
            Watched::by_paper(&sides.typed, &self.state, &self.run),
        ]
    }

    /// Compares what is observed of every tick; counts the ticks.
    pub fn compare(self, sides: &Sides) -> Counted {
        let [library, paper] = self.answers(sides);
        match library == paper {
            true => Ok(self.run.len() as u64),
            false => Err(failure(sides, self)),
        }
    }

    /// Without its first ticks, from the state that they leave.
    fn later(&self, ticks: usize) -> RunCase {
        let (first, rest) = self.run.split_at(ticks);
        let state = left(&self.state, first.iter().map(|tick| tick.given));
        let run = rest.to_vec();
        RunCase { state, run }
    }

    fn with_run(&self, run: Vec<Tick>) -> RunCase {
        RunCase {
            state: self.state,
            run,
        }
    }

    /// With plainer ticks, one at a time.
    fn plainer(&self) -> Vec<RunCase> {
        let mut cases = Vec::new();
        for (at, tick) in self.run.iter().enumerate() {
            for plainer in plainer(tick) {
                let mut run = self.run.clone();
                run[at] = plainer;
                cases.push(self.with_run(run));
            }
        }
        cases
    }
}

impl Case for RunCase {
    fn difference(&self, sides: &Sides) -> Option<String> {
        let [library, paper] = self.answers(sides);
        library.difference(&paper, ["library", "paper"])
    }

    fn shorter(&self) -> Vec<RunCase> {
        let length = self.run.len();
        let later = [length / 2, 1].into_iter();
        let later = later.filter(|ticks| (1..=length).contains(ticks));
        let mut cases: Vec<RunCase> = later.map(|ticks| self.later(ticks)).collect();
        cases.extend(parts(length).into_iter().map(|part| {
            let (before, after) = (&self.run[..part.start], &self.run[part.end..]);
            self.with_run([before, after].concat())
        }));
        cases.extend(self.plainer());
        let states = states::shorter_or_sooner(&self.state).into_iter();
        let states = states.filter_map(|state| Numbers::try_from(state).ok());
        cases.extend(states.map(|state| RunCase {
            state,
            ..self.clone()
        }));
        cases
    }
}

impl fmt::Display for RunCase {
    fn fmt(&self, out: &mut fmt::Formatter) -> fmt::Result {
        writeln!(out, "run from {}", states::describe(&self.state))?;
        write!(out, "ticks")?;
        for tick in &self.run {
            write!(out, " [{}{}]", named(tick.given), bit(tick.vis_latch_up))?;
        }
        Ok(())
    }
}

/// The state after ticks at which these words are given.
pub fn left(state: &Numbers, given: impl Iterator<Item = Given>) -> Numbers {
    let mut head = State::from_array(state);
    for given in given {
        give(&mut head, given);
        paper::tick(&mut head);
    }
    head.to_array()
}

/// Gives the paper's head a word.
pub fn give(head: &mut State, given: Given) {
    match given {
        Given::Nothing => 0,
        Given::ByCcd(word) => paper::pass_on(head, CCD_OPERATOR, word),
        Given::ByInfrared(word) => paper::pass_on(head, INFRARED_OPERATOR, word),
        Given::ByController(word) => paper::word(head, word),
    };
}

/// Without the word, with a word of less data, or without the bit.
fn plainer(tick: &Tick) -> Vec<Tick> {
    let (word, by): (u16, fn(u16) -> Given) = match tick.given {
        Given::Nothing => return without_bit(tick),
        Given::ByCcd(word) => (word, Given::ByCcd),
        Given::ByInfrared(word) => (word, Given::ByInfrared),
        Given::ByController(word) => (word, Given::ByController),
    };
    let lesser = less_data(word).into_iter().map(by);
    let given = [Given::Nothing].into_iter().chain(lesser);
    let mut ticks: Vec<Tick> = given.map(|given| Tick { given, ..*tick }).collect();
    ticks.extend(without_bit(tick));
    ticks
}

fn without_bit(tick: &Tick) -> Vec<Tick> {
    let plain = Tick {
        vis_latch_up: false,
        ..*tick
    };
    tick.vis_latch_up.then_some(plain).into_iter().collect()
}

/// A word and who gives it.
pub fn named(given: Given) -> String {
    match given {
        Given::Nothing => "nothing".into(),
        Given::ByCcd(word) => format!("CCD {word:04X}"),
        Given::ByInfrared(word) => format!("infrared {word:04X}"),
        Given::ByController(word) => format!("controller {word:04X}"),
    }
}

/// The caller's bit, where it is set.
pub fn bit(latch_up: bool) -> &'static str {
    match latch_up {
        true => ", VIS bit",
        false => "",
    }
}
