//! The inspection of one list on both sides, compared and made shorter.

use crate::buffer::{difference, Buffer};
use crate::list_case::{describe, ComparesLists, ListCase};
use crate::reduce::{failure, Case, Counted};
use crate::room::Room;
use crate::shorter_lists;
use crate::sides::{Functions, Sides};
use crate::states;
use crate::text_form::{answers_differ, badly_formed, is_well_formed, lines_differ, written};
use shabgozim::INSPECTION_LENGTH;
use std::fmt;

const MOST_ROOM: usize = INSPECTION_LENGTH;
/// A fill that is no byte of a text.
const NO_BYTE: u8 = 0xBB;
/// What an answer has in its upper half.
const UPPER: &str = "length";
/// Of more words none is left out singly.
const MOST_SINGLY: usize = 64;

/// A list, and how many places there are for the text.
#[derive(Clone)]
pub struct InspectionCase {
    pub words: Vec<u16>,
    pub ticks: Vec<u32>,
    pub room: Room,
}

/// Has both sides inspect lists, into buffers that are used again.
pub struct Inspector {
    sides: Sides,
    library: Buffer<u8>,
    paper: Buffer<u8>,
}

impl Inspector {
    pub fn new(sides: &Sides) -> Inspector {
        Inspector {
            sides: *sides,
            library: Buffer::filled(MOST_ROOM, NO_BYTE),
            paper: Buffer::filled(MOST_ROOM, NO_BYTE),
        }
    }

    fn answers(&mut self, case: &InspectionCase) -> (u64, u64) {
        let places = case.places();
        self.library.refill(NO_BYTE, places);
        self.paper.refill(NO_BYTE, places);
        let inspect = |side: &Functions, text: &mut Buffer<u8>| {
            (side.inspection)(&case.words, &case.ticks, text.lent())
        };
        let answer = inspect(&self.sides.library, &mut self.library);
        (answer, inspect(&self.sides.paper, &mut self.paper))
    }

    /// Compares the answers and every place of the text, and looks at the form
    /// of the lines.
    pub fn inspect(&mut self, case: &InspectionCase) -> Counted {
        let (answer, expected) = self.answers(case);
        let alike = answer == expected && self.library == self.paper;
        match alike && is_well_formed(written(answer, &self.library)) {
            true => Ok(1),
            false => Err(failure(&self.sides, case.clone())),
        }
    }
}

impl ComparesLists for Inspector {
    /// The text has as much more or less room as the outcomes would have.
    fn compare(&mut self, case: &ListCase) -> Counted {
        let room = case.room as isize - case.words.len() as isize;
        self.inspect(&InspectionCase::of(case, Room::Beside(room)))
    }
}

impl InspectionCase {
    /// The list of a case that starts at power-on.
    pub fn of(list: &ListCase, room: Room) -> InspectionCase {
        InspectionCase {
            words: list.words.clone(),
            ticks: list.ticks.clone(),
            room,
        }
    }

    /// Whether a list with so many of the words is tried when this one is made
    /// shorter. Long inspections take long: of many words an eighth or more is
    /// left out, or none.
    fn is_worth_trying(&self, words: usize) -> bool {
        let left_out = self.words.len() - words;
        self.words.len() <= MOST_SINGLY || left_out == 0 || left_out >= self.words.len() / 8
    }

    fn places(&self) -> usize {
        let length = || {
            let inspected = paper::inspection(&self.words, &self.ticks);
            inspected.map_or(0, |inspected| inspected.text.len())
        };
        self.room.places(length, MOST_ROOM)
    }
}

impl Case for InspectionCase {
    fn difference(&self, sides: &Sides) -> Option<String> {
        let mut inspector = Inspector::new(sides);
        let (answer, expected) = inspector.answers(self);
        let Inspector { library, paper, .. } = inspector;
        if answer as u8 != expected as u8 {
            return answers_differ(answer, expected, UPPER);
        }
        let text = written(answer, &library);
        lines_differ(text, written(expected, &paper))
            .or_else(|| answers_differ(answer, expected, UPPER))
            .or_else(|| difference("text", &library, &paper))
            .or_else(|| badly_formed(text))
    }

    fn shorter(&self) -> Vec<InspectionCase> {
        let rooms = self.room.plainer().into_iter();
        let mut cases: Vec<InspectionCase> = rooms
            .map(|room| InspectionCase {
                room,
                ..self.clone()
            })
            .collect();
        let (words, ticks) = (self.words.clone(), self.ticks.clone());
        let list = ListCase::new(&states::power_on(), words, ticks);
        let lists = shorter_lists::shorter(&list).into_iter();
        let lists = lists.filter(|list| self.is_worth_trying(list.words.len()));
        cases.extend(lists.map(|list| InspectionCase::of(&list, self.room)));
        cases
    }
}

impl fmt::Display for InspectionCase {
    fn fmt(&self, out: &mut fmt::Formatter) -> fmt::Result {
        writeln!(out, "{}", describe(&self.words, &self.ticks))?;
        write!(out, "inspected, text: {}", self.room)
    }
}
