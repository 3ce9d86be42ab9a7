//! The table of upper bytes, with room for all of it and with less.

use crate::buffer::{difference, Buffer};
use crate::random::Random;
use crate::reduce::{failure, Case, Counted};
use crate::sides::{Functions, Sides};
use shabgozim::UPPER_BYTES_LENGTH;
use std::fmt;

/// A fill that is no byte of a text.
const NO_BYTE: u8 = 0xBB;
/// Lengths of the text this far apart are tried.
const APART: usize = 61;

/// How many places there are for the table.
struct TableCase {
    places: usize,
}

/// The room that is said to suffice, every length about the table's own, and
/// others down to none.
pub fn table(sides: &Sides, _: &mut Random, _: u32) -> Counted {
    let length = paper::upper_bytes().len();
    let near = length - APART..=length + APART;
    let less = (0..length).step_by(APART).chain([1]);
    let mut count = 0;
    for places in [UPPER_BYTES_LENGTH].into_iter().chain(near).chain(less) {
        count += TableCase { places }.compare(sides)?;
    }
    Ok(count)
}

impl TableCase {
    /// Compares the answers and every place of the text.
    fn compare(self, sides: &Sides) -> Counted {
        match self.write(&sides.library) == self.write(&sides.paper) {
            true => Ok(1),
            false => Err(failure(sides, self)),
        }
    }

    fn write(&self, side: &Functions) -> (u64, Buffer<u8>) {
        let mut text = Buffer::filled(UPPER_BYTES_LENGTH, NO_BYTE);
        text.refill(NO_BYTE, self.places);
        let answer = (side.upper_bytes)(text.lent());
        (answer, text)
    }
}

impl Case for TableCase {
    fn difference(&self, sides: &Sides) -> Option<String> {
        let (answer, text) = self.write(&sides.library);
        let (expected, expected_text) = self.write(&sides.paper);
        if answer != expected {
            return Some(format!("answer: library {answer:#X}, paper {expected:#X}"));
        }
        difference("text", &text, &expected_text)
    }

    fn shorter(&self) -> Vec<TableCase> {
        Vec::new()
    }
}

impl fmt::Display for TableCase {
    fn fmt(&self, out: &mut fmt::Formatter) -> fmt::Result {
        write!(out, "table of upper bytes, {} places", self.places)
    }
}
