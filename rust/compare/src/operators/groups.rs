//! The group of every kind of word, and of every number that is no kind.

use crate::random::Random;
use crate::reduce::{failure, Case, Counted};
use crate::sides::{Functions, Sides};
use std::fmt;

/// The number of a kind, or none.
struct GroupCase(u8);

pub fn groups(sides: &Sides, _: &mut Random, _: u32) -> Counted {
    for kind in 0..=u8::MAX {
        let case = GroupCase(kind);
        if case.answer(&sides.library) != case.answer(&sides.paper) {
            return Err(failure(sides, case));
        }
    }
    Ok(1 << 8)
}

impl GroupCase {
    fn answer(&self, side: &Functions) -> u32 {
        (side.group)(self.0)
    }
}

impl Case for GroupCase {
    fn difference(&self, sides: &Sides) -> Option<String> {
        let (answer, expected) = (self.answer(&sides.library), self.answer(&sides.paper));
        let text = format!("answer: library {answer}, paper {expected}");
        (answer != expected).then_some(text)
    }

    fn shorter(&self) -> Vec<GroupCase> {
        Vec::new()
    }
}

impl fmt::Display for GroupCase {
    fn fmt(&self, out: &mut fmt::Formatter) -> fmt::Result {
        write!(out, "group of kind {}", self.0)
    }
}
