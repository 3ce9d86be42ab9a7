//! Refusals of a word that is not passed on and of merging in words: every
//! number, in rooms that are too short, just enough and longer.

use crate::buffer::{difference, Buffer};
use crate::random::Random;
use crate::reduce::{failure, Case, Counted};
use crate::room::Room;
use crate::sides::{Functions, Sides};
use std::fmt;

/// More bytes than any line has.
const LONGEST: isize = 120;
const MOST_ROOM: usize = 140;
/// A fill that is no byte of a text.
const NO_BYTE: u8 = 0xBB;

/// A number, and how many places there are for its line.
#[derive(Clone, Copy)]
struct LineCase {
    number: u8,
    room: Room,
}

pub fn in_words(sides: &Sides, _: &mut Random, _: u32) -> Counted {
    let beside = (-LONGEST..=LONGEST).map(Room::Beside);
    let rooms: Vec<Room> = beside.chain([Room::Every]).collect();
    let mut count = 0;
    for number in 0..=u8::MAX {
        for &room in &rooms {
            count += LineCase { number, room }.compare(sides)?;
        }
    }
    Ok(count)
}

impl LineCase {
    /// Compares the answers and every place of the text.
    fn compare(self, sides: &Sides) -> Counted {
        match self.write(&sides.library) == self.write(&sides.paper) {
            true => Ok(1),
            false => Err(failure(sides, self)),
        }
    }

    fn write(&self, side: &Functions) -> (u32, Buffer<u8>) {
        let length = || paper::operator_refusal(self.number).map_or(0, |line| line.len());
        let mut text = Buffer::filled(MOST_ROOM, NO_BYTE);
        text.refill(NO_BYTE, self.room.places(length, MOST_ROOM));
        let answer = (side.operator_refusal)(self.number, text.lent());
        (answer, text)
    }
}

impl Case for LineCase {
    fn difference(&self, sides: &Sides) -> Option<String> {
        let (answer, text) = self.write(&sides.library);
        let (expected, expected_text) = self.write(&sides.paper);
        if answer != expected {
            return Some(format!("answer: library {answer}, paper {expected}"));
        }
        difference("text", &text, &expected_text)
    }

    fn shorter(&self) -> Vec<LineCase> {
        let number = self.number;
        let rooms = self.room.plainer().into_iter();
        rooms.map(|room| LineCase { number, room }).collect()
    }
}

impl fmt::Display for LineCase {
    fn fmt(&self, out: &mut fmt::Formatter) -> fmt::Result {
        write!(out, "operator refusal {}, text: {}", self.number, self.room)
    }
}
