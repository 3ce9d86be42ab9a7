//! One refusal in words on both sides, compared and made shorter.

use crate::buffer::{difference, Buffer};
use crate::orders;
use crate::reduce::{failure, Case, Counted};
use crate::sides::{Functions, Sides};
use shabgozim::REFUSAL_LENGTH;
use std::fmt;

pub const MOST_ROOM: usize = REFUSAL_LENGTH + 1;
/// A fill that is no byte of a text.
const NO_BYTE: u8 = 0xBB;

/// A refusal of a plan, and how many places there are for its words.
#[derive(Clone)]
pub struct RefusalCase {
    pub number: u8,
    pub place: u32,
    pub plan: Vec<u8>,
    pub room: usize,
}

/// Whether the refusals of this number name an order.
pub fn names_order(number: u8) -> bool {
    (5..=9).contains(&number)
}

impl RefusalCase {
    /// With room for every refusal.
    pub fn new(number: u8, place: u32, plan: Vec<u8>) -> RefusalCase {
        RefusalCase {
            number,
            place,
            plan,
            room: REFUSAL_LENGTH,
        }
    }

    /// The refusal of this plan for a head just switched on, if it is refused.
    pub fn of(plan: Vec<u8>) -> Option<RefusalCase> {
        let refusal = paper::read_plan(&paper::power_on(), &plan).err()?;
        let (number, place) = (refusal.number as u8, refusal.place as u32);
        Some(RefusalCase::new(number, place, plan))
    }

    /// Compares the answers and every place of the text.
    pub fn compare(self, sides: &Sides) -> Counted {
        match self.write(&sides.library) == self.write(&sides.paper) {
            true => Ok(1),
            false => Err(failure(sides, self)),
        }
    }

    fn write(&self, side: &Functions) -> (u32, Buffer<u8>) {
        let mut text = Buffer::filled(MOST_ROOM, NO_BYTE);
        text.refill(NO_BYTE, self.room);
        let answer = (side.refusal)(self.number, self.place, &self.plan, text.lent());
        (answer, text)
    }

    /// The refusals of shorter plans: the place must be that of an order.
    fn of_shorter_plans(&self) -> Vec<RefusalCase> {
        let plans = orders::shorter(&self.plan).into_iter();
        let cases = plans.filter_map(RefusalCase::of);
        let with_room = cases.map(|case| RefusalCase {
            room: self.room,
            ..case
        });
        with_room.collect()
    }

    /// No plan, or a place nearer to 0.
    fn with_less(&self) -> Vec<RefusalCase> {
        let places = [0, self.place / 2, self.place.saturating_sub(1)];
        let lesser = places.into_iter().filter(|&place| place < self.place);
        let mut cases: Vec<RefusalCase> = lesser
            .map(|place| RefusalCase {
                place,
                ..self.clone()
            })
            .collect();
        if !self.plan.is_empty() {
            cases.push(RefusalCase {
                plan: Vec::new(),
                ..self.clone()
            });
        }
        cases
    }
}

impl Case for RefusalCase {
    fn difference(&self, sides: &Sides) -> Option<String> {
        let (answer, text) = self.write(&sides.library);
        let (expected, expected_text) = self.write(&sides.paper);
        if (answer, &text) == (expected, &expected_text) {
            return None;
        }
        let (line, expected_line) = (line(answer, &text), line(expected, &expected_text));
        if line != expected_line {
            return Some(format!("library {line}\npaper   {expected_line}"));
        }
        difference("text", &text, &expected_text)
    }

    fn shorter(&self) -> Vec<RefusalCase> {
        let mut cases = Vec::new();
        if self.room != REFUSAL_LENGTH {
            cases.push(RefusalCase {
                room: REFUSAL_LENGTH,
                ..self.clone()
            });
        }
        cases.extend(match names_order(self.number) {
            true => self.of_shorter_plans(),
            false => self.with_less(),
        });
        cases
    }
}

/// The answer, and what was written as it says.
fn line(answer: u32, text: &Buffer<u8>) -> String {
    let places = text.values();
    let written = &places[..places.len().min(answer as usize)];
    format!("{answer} {:?}", String::from_utf8_lossy(written))
}

impl fmt::Display for RefusalCase {
    fn fmt(&self, out: &mut fmt::Formatter) -> fmt::Result {
        let (number, place) = (self.number, self.place);
        let plan = orders::describe(&self.plan);
        writeln!(out, "refusal {number} at {place}, {plan}")?;
        write!(out, "with room for {} bytes", self.room)
    }
}
