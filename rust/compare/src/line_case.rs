//! One refusal of a list's text in words on both sides, compared.

use crate::buffer::{difference, Buffer};
use crate::reduce::{failure, Case, Counted};
use crate::room::Room;
use crate::sides::{Functions, Sides};
use paper::TextRefusal;
use std::fmt;

/// More bytes than any refusal of a text has.
pub const LONGEST: isize = 80;
const MOST_ROOM: usize = 100;
/// A fill that is no byte of a text.
const NO_BYTE: u8 = 0xBB;

/// A refusal, and how many places there are for its words.
#[derive(Clone)]
pub struct LineCase {
    pub number: u8,
    pub line: u32,
    pub room: Room,
}

impl LineCase {
    /// With room for every refusal.
    pub fn new(number: u8, line: u32) -> LineCase {
        LineCase {
            number,
            line,
            room: Room::Every,
        }
    }

    /// Compares the answers and every place of the text.
    pub fn compare(self, sides: &Sides) -> Counted {
        match self.write(&sides.library) == self.write(&sides.paper) {
            true => Ok(1),
            false => Err(failure(sides, self)),
        }
    }

    /// The length of the line with its newline; 0 where there is none.
    fn length(&self) -> usize {
        let (number, line) = (self.number.into(), self.line as usize);
        let refusal = TextRefusal { number, line };
        match refusal.in_words() {
            none if none.is_empty() => 0,
            line => line.len() + 1,
        }
    }

    fn write(&self, side: &Functions) -> (u32, Buffer<u8>) {
        let mut text = Buffer::filled(MOST_ROOM, NO_BYTE);
        let places = self.room.places(|| self.length(), MOST_ROOM);
        text.refill(NO_BYTE, places);
        let answer = (side.list_refusal)(self.number, self.line, text.lent());
        (answer, text)
    }
}

impl Case for LineCase {
    fn difference(&self, sides: &Sides) -> Option<String> {
        let (answer, text) = self.write(&sides.library);
        let (expected, expected_text) = self.write(&sides.paper);
        if answer != expected {
            return Some(format!("answer: library {answer}, paper {expected}"));
        }
        difference("text", &text, &expected_text)
    }

    fn shorter(&self) -> Vec<LineCase> {
        let rooms = self.room.plainer().into_iter();
        let rooms = rooms.map(|room| LineCase {
            room,
            ..self.clone()
        });
        let lines = [0, self.line / 10, self.line / 2].into_iter();
        let lesser = lines.filter(|&line| line < self.line);
        let lesser = lesser.map(|line| LineCase {
            line,
            ..self.clone()
        });
        rooms.chain(lesser).collect()
    }
}

impl fmt::Display for LineCase {
    fn fmt(&self, out: &mut fmt::Formatter) -> fmt::Result {
        let (number, line, room) = (self.number, self.line, self.room);
        write!(out, "refusal {number} at line {line}, text: {room}")
    }
}
