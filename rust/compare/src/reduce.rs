//! A failing case, made as short as can be found.

use crate::sides::Sides;
use std::fmt::Display;

/// What one comparison is made of.
pub trait Case: Sized + Display {
    /// How the two sides differ, if they do.
    fn difference(&self, sides: &Sides) -> Option<String>;

    /// Cases that are a step shorter; no chain of such steps is endless.
    fn shorter(&self) -> Vec<Self>;
}

/// A difference, as text.
#[derive(Debug)]
pub struct Failure(pub String);

/// How many comparisons were made without a difference.
pub type Counted = Result<u64, Failure>;

/// The failure of a case that differs, reduced first.
pub fn failure<C: Case>(sides: &Sides, case: C) -> Failure {
    let case = shortest(sides, case);
    let difference = case.difference(sides);
    let difference = difference.unwrap_or("a difference that did not show again".into());
    Failure(format!("{case}\n{difference}"))
}

fn shortest<C: Case>(sides: &Sides, mut case: C) -> C {
    let mut place = 0;
    while let Some((found, shorter)) = next_failing(sides, case.shorter(), place) {
        (place, case) = (found, shorter);
    }
    case
}

/// The next case that differs, and its place. What stands from the given
/// place on is tried first: what was tried before it is unlikely to differ.
fn next_failing<C: Case>(sides: &Sides, mut cases: Vec<C>, place: usize) -> Option<(usize, C)> {
    let first = place.min(cases.len());
    let mut places = (first..cases.len()).chain(0..first);
    let found = places.find(|&place| cases[place].difference(sides).is_some())?;
    Some((found, cases.swap_remove(found)))
}
