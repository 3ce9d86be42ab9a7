//! The line of one answer about a word on both sides, compared and made shorter.

use crate::buffer::{difference, Buffer};
use crate::reduce::{failure, Case, Counted};
use crate::room::Room;
use crate::sides::{Functions, Sides};
use crate::text_form::badly_formed_within;
use shabgozim::EXPLANATION_LENGTH;
use std::fmt;

pub const MOST_ROOM: usize = EXPLANATION_LENGTH;
/// No line has more, its newline left out.
const MOST_COLUMNS: usize = 64;
/// A fill that is no byte of a text.
const NO_BYTE: u8 = 0xBB;

/// An answer, or a number that is none, and how many places there are for its
/// line.
#[derive(Clone, Copy)]
pub struct ExplanationCase {
    pub why: u32,
    pub room: Room,
}

/// Has both sides write lines, into buffers that are used again.
pub struct Explainer {
    sides: Sides,
    library: Buffer<u8>,
    paper: Buffer<u8>,
}

impl Explainer {
    pub fn new(sides: &Sides) -> Explainer {
        Explainer {
            sides: *sides,
            library: Buffer::filled(MOST_ROOM, NO_BYTE),
            paper: Buffer::filled(MOST_ROOM, NO_BYTE),
        }
    }

    fn answers(&mut self, why: u32, places: usize) -> (u32, u32) {
        let write = |side: &Functions, text: &mut Buffer<u8>| {
            text.refill(NO_BYTE, places);
            (side.explanation)(why, text.lent())
        };
        let answer = write(&self.sides.library, &mut self.library);
        (answer, write(&self.sides.paper, &mut self.paper))
    }

    /// Compares the answers and every place of the text, and looks at the form
    /// of the line; `needed` are the places that it needs.
    pub fn compare(&mut self, case: ExplanationCase, needed: usize) -> Counted {
        let places = case.room.places(|| needed, MOST_ROOM);
        let (answer, expected) = self.answers(case.why, places);
        let alike = answer == expected && self.library == self.paper;
        match alike && not_one_line(written(answer, &self.library)).is_none() {
            true => Ok(1),
            false => Err(failure(&self.sides, case)),
        }
    }
}

impl ExplanationCase {
    /// The places that the line needs; 0 where there is none.
    pub fn needed(why: u32) -> usize {
        paper::explanation(why).map_or(0, |line| line.len())
    }

    /// The same rule, with one bit less about it.
    fn lesser(self) -> impl Iterator<Item = ExplanationCase> {
        let bits = (8..u32::BITS).map(|bit| 1 << bit);
        let set = bits.filter(move |bit| self.why & bit != 0);
        set.map(move |bit| ExplanationCase {
            why: self.why & !bit,
            ..self
        })
    }
}

impl Case for ExplanationCase {
    fn difference(&self, sides: &Sides) -> Option<String> {
        let mut explainer = Explainer::new(sides);
        let places = self.room.places(|| Self::needed(self.why), MOST_ROOM);
        let (answer, expected) = explainer.answers(self.why, places);
        let Explainer { library, paper, .. } = explainer;
        let (line, expected) = (shown(answer, &library), shown(expected, &paper));
        if line != expected {
            return Some(format!("library {line}\npaper   {expected}"));
        }
        difference("text", &library, &paper).or_else(|| not_one_line(written(answer, &library)))
    }

    fn shorter(&self) -> Vec<ExplanationCase> {
        let rooms = self.room.plainer().into_iter();
        let rooms = rooms.map(|room| ExplanationCase { room, ..*self });
        rooms.chain(self.lesser()).collect()
    }
}

/// What an answer says was written.
fn written(answer: u32, text: &Buffer<u8>) -> &[u8] {
    let places = text.values();
    &places[..places.len().min(answer as usize)]
}

/// The answer and what was written.
fn shown(answer: u32, text: &Buffer<u8>) -> String {
    let line = String::from_utf8_lossy(written(answer, text));
    format!("{answer} {line:?}")
}

/// What is wrong with a line: only its end is a newline.
fn not_one_line(line: &[u8]) -> Option<String> {
    match line {
        [] => None,
        [line @ .., b'\n'] if !line.contains(&b'\n') => badly_formed_within(line, MOST_COLUMNS),
        _ => Some("not one line".into()),
    }
}

impl fmt::Display for ExplanationCase {
    fn fmt(&self, out: &mut fmt::Formatter) -> fmt::Result {
        write!(out, "explanation of {:#X}, text: {}", self.why, self.room)
    }
}
