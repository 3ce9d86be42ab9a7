//! Every word and every request of the high-resolution head.

use crate::random::Random;
use crate::reduce::{failure, Case, Counted, Failure};
use crate::sides::{Functions, Sides};
use std::fmt;

/// How many words some request has.
const ALLOWED_WORDS: usize = 4376;
/// Set where a meaning is that of several requests; below it is the first one.
const SHARED: u8 = 0x80;

enum RequestCase {
    Decode(u16),
    Encode(u8, u16),
}

impl RequestCase {
    fn answer(&self, side: &Functions) -> u32 {
        match *self {
            RequestCase::Decode(word) => (side.h_decode)(word),
            RequestCase::Encode(request, value) => (side.h_encode)(request, value),
        }
    }

    /// Compares the answers.
    fn compare(self, sides: &Sides) -> Result<(), Failure> {
        match self.answer(&sides.library) == self.answer(&sides.paper) {
            true => Ok(()),
            false => Err(failure(sides, self)),
        }
    }
}

impl Case for RequestCase {
    fn difference(&self, sides: &Sides) -> Option<String> {
        let (answer, expected) = (self.answer(&sides.library), self.answer(&sides.paper));
        let text = format!("answer: library {answer:#X}, paper {expected:#X}");
        (answer != expected).then_some(text)
    }

    fn shorter(&self) -> Vec<RequestCase> {
        Vec::new()
    }
}

impl fmt::Display for RequestCase {
    fn fmt(&self, out: &mut fmt::Formatter) -> fmt::Result {
        match self {
            RequestCase::Decode(word) => write!(out, "PEM-H decode {word:04X}"),
            RequestCase::Encode(request, value) => {
                write!(out, "PEM-H encode request {request} value {value:04X}")
            }
        }
    }
}

pub fn decode_all(sides: &Sides, _: &mut Random, _: u32) -> Counted {
    for word in 0..=u16::MAX {
        RequestCase::Decode(word).compare(sides)?;
        is_written_back(&sides.library, word)?;
    }
    right_number_of_words(&sides.library)?;
    Ok(1 << 16)
}

/// Every value with every number, also with those of no request.
pub fn encode_all(sides: &Sides, _: &mut Random, _: u32) -> Counted {
    for value in 0..=u16::MAX {
        for request in 0..=u8::MAX {
            RequestCase::Encode(request, value).compare(sides)?;
        }
    }
    Ok(1 << 24)
}

/// Number, meaning and value of an answer.
fn taken_apart(answer: u32) -> (u8, u8, u16) {
    let [number, meaning, ..] = answer.to_be_bytes();
    (number, meaning, answer as u16)
}

/// The library writes the word that it read.
fn is_written_back(library: &Functions, word: u16) -> Result<(), Failure> {
    let (0, meaning, value) = taken_apart((library.h_decode)(word)) else {
        return Ok(());
    };
    let written = (library.h_encode)(meaning & !SHARED, value);
    match written == u32::from(word) {
        true => Ok(()),
        false => Err(Failure(format!(
            "PEM-H decode {word:04X}: written back as {written:#X}"
        ))),
    }
}

fn right_number_of_words(library: &Functions) -> Result<(), Failure> {
    let allowed = (0..=u16::MAX).filter(|&word| (library.h_decode)(word) >> 24 == 0);
    let count = allowed.count();
    match count {
        ALLOWED_WORDS => Ok(()),
        _ => Err(Failure(format!(
            "{count} words of requests, not {ALLOWED_WORDS}"
        ))),
    }
}
