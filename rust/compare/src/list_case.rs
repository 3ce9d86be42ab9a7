//! One list of timed words on both sides, compared.

use crate::buffer::{difference, Buffer};
use crate::reduce::{failure, Case, Counted};
use crate::shorter_lists;
use crate::sides::{Functions, Sides};
use crate::states;
use shabgozim::STATE_LENGTH;
use std::fmt;

/// More places than the outcomes of any list need.
pub const ROOM: usize = 300;
pub const LONGEST_STATE: usize = 2 * STATE_LENGTH + 2;
/// A fill that is no outcome.
const FILL: u16 = 0xAAAA;

/// One list: state, words, ticks, and how many places there are for outcomes.
#[derive(Clone)]
pub struct ListCase {
    pub state: Vec<u16>,
    pub words: Vec<u16>,
    pub ticks: Vec<u32>,
    pub room: usize,
}

/// What compares lists.
pub trait ComparesLists {
    fn compare(&mut self, case: &ListCase) -> Counted;
}

/// What one side may write to.
#[derive(PartialEq, Eq)]
struct Lent {
    state: Buffer<u16>,
    outcomes: Buffer<u16>,
}

/// Gives lists to both sides, with buffers that are used again.
pub struct Lister {
    sides: Sides,
    library: Lent,
    paper: Lent,
}

impl Lent {
    fn new(room: usize) -> Lent {
        Lent {
            state: Buffer::filled(LONGEST_STATE, FILL),
            outcomes: Buffer::filled(room, FILL),
        }
    }

    fn give(&mut self, side: &Functions, case: &ListCase) -> u32 {
        self.state.refill_with(FILL, &case.state);
        self.outcomes.refill(FILL, case.room);
        let outcomes = self.outcomes.lent();
        (side.list)(self.state.lent(), &case.words, &case.ticks, outcomes)
    }
}

impl Lister {
    pub fn new(sides: &Sides) -> Lister {
        Lister::with_room(sides, ROOM)
    }

    /// For up to so many outcomes.
    pub fn with_room(sides: &Sides, room: usize) -> Lister {
        Lister {
            sides: *sides,
            library: Lent::new(room),
            paper: Lent::new(room),
        }
    }

    fn answers(&mut self, case: &ListCase) -> (u32, u32) {
        let answer = self.library.give(&self.sides.library, case);
        (answer, self.paper.give(&self.sides.paper, case))
    }
}

impl ComparesLists for Lister {
    /// Compares the answers and every place of state and outcomes.
    fn compare(&mut self, case: &ListCase) -> Counted {
        let (answer, expected) = self.answers(case);
        match answer == expected && self.library == self.paper {
            true => Ok(1),
            false => Err(failure(&self.sides, case.clone())),
        }
    }
}

impl ListCase {
    /// With room for every outcome.
    pub fn new(state: &[u16], words: Vec<u16>, ticks: Vec<u32>) -> ListCase {
        ListCase {
            state: state.to_vec(),
            words,
            ticks,
            room: ROOM,
        }
    }
}

impl Case for ListCase {
    fn difference(&self, sides: &Sides) -> Option<String> {
        let mut lister = Lister::with_room(sides, ROOM.max(self.room));
        let (answer, expected) = lister.answers(self);
        if answer != expected {
            return Some(format!("answer: library {answer}, paper {expected}"));
        }
        let Lister { library, paper, .. } = lister;
        let outcomes = difference("outcomes", &library.outcomes, &paper.outcomes);
        outcomes.or(difference("state", &library.state, &paper.state))
    }

    fn shorter(&self) -> Vec<ListCase> {
        shorter_lists::shorter(self)
    }
}

impl fmt::Display for ListCase {
    fn fmt(&self, out: &mut fmt::Formatter) -> fmt::Result {
        writeln!(out, "{}", describe(&self.words, &self.ticks))?;
        writeln!(out, "from {}", states::describe(&self.state))?;
        write!(out, "with room for {} outcomes", self.room)
    }
}

/// The words and ticks of a list, a line for each.
pub fn describe(words: &[u16], ticks: &[u32]) -> String {
    let words = line(words, |word| format!(" {word:04X}"));
    let ticks = line(ticks, |tick| format!(" {tick}"));
    format!("words{words}\nticks{ticks}")
}

/// The numbers of a list; of a very long one the first of them.
fn line<T>(numbers: &[T], text: impl Fn(&T) -> String) -> String {
    const FIRST: usize = 4;
    if numbers.len() <= ROOM {
        return numbers.iter().map(text).collect();
    }
    let first: String = numbers[..FIRST].iter().map(text).collect();
    format!("{first} and {} more", numbers.len() - FIRST)
}
