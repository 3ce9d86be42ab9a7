//! One list as text, read on both sides, compared and made shorter.

use crate::buffer::{difference, Buffer};
use crate::reduce::{failure, Case, Counted};
use crate::room::Room;
use crate::shorter_texts;
use crate::sides::{Functions, Sides};
use crate::text_form::answers_differ;
use std::fmt;

/// More places than any list needs.
const MOST_ROOM: usize = 300;
const NO_WORD: u16 = 0xAAAA;
const NO_TICK: u32 = 0xBBBB_BBBB;
/// Of a longer text only the first bytes are shown.
const MOST_SHOWN: usize = 4200;

/// A text, and how many places there are for words and for ticks.
#[derive(Clone)]
pub struct TextCase {
    pub text: Vec<u8>,
    pub words: Room,
    pub ticks: Room,
}

/// What one side may write to.
#[derive(PartialEq, Eq)]
struct Lent {
    words: Buffer<u16>,
    ticks: Buffer<u32>,
}

/// Has both sides read texts, into buffers that are used again.
pub struct Reader {
    sides: Sides,
    library: Lent,
    paper: Lent,
}

impl Lent {
    fn new() -> Lent {
        Lent {
            words: Buffer::filled(MOST_ROOM, NO_WORD),
            ticks: Buffer::filled(MOST_ROOM, NO_TICK),
        }
    }

    fn read(&mut self, side: &Functions, case: &TextCase) -> u64 {
        let needed = || paper::read_list(&case.text).map_or(0, |list| list.words.len());
        let (words, ticks) = (case.words, case.ticks);
        self.words.refill(NO_WORD, words.places(needed, MOST_ROOM));
        self.ticks.refill(NO_TICK, ticks.places(needed, MOST_ROOM));
        (side.read_list)(&case.text, self.words.lent(), self.ticks.lent())
    }
}

impl Reader {
    pub fn new(sides: &Sides) -> Reader {
        Reader {
            sides: *sides,
            library: Lent::new(),
            paper: Lent::new(),
        }
    }

    fn answers(&mut self, case: &TextCase) -> (u64, u64) {
        let answer = self.library.read(&self.sides.library, case);
        (answer, self.paper.read(&self.sides.paper, case))
    }

    /// Compares the answers and every place of words and ticks.
    pub fn compare(&mut self, case: &TextCase) -> Counted {
        let (answer, expected) = self.answers(case);
        match answer == expected && self.library == self.paper {
            true => Ok(1),
            false => Err(failure(&self.sides, case.clone())),
        }
    }

    /// Compares with room for every word.
    pub fn compare_text(&mut self, text: Vec<u8>) -> Counted {
        self.compare(&TextCase::new(text))
    }
}

impl TextCase {
    /// With room for every word.
    pub fn new(text: Vec<u8>) -> TextCase {
        TextCase {
            text,
            words: Room::Every,
            ticks: Room::Every,
        }
    }

    fn with_text(&self, text: Vec<u8>) -> TextCase {
        TextCase {
            text,
            ..self.clone()
        }
    }
}

impl Case for TextCase {
    fn difference(&self, sides: &Sides) -> Option<String> {
        let mut reader = Reader::new(sides);
        let (answer, expected) = reader.answers(self);
        let Reader { library, paper, .. } = reader;
        answers_differ(answer, expected, "words or line")
            .or_else(|| difference("words", &library.words, &paper.words))
            .or_else(|| difference("ticks", &library.ticks, &paper.ticks))
    }

    fn shorter(&self) -> Vec<TextCase> {
        let texts = shorter_texts::shorter(&self.text).into_iter();
        let mut cases: Vec<TextCase> = texts.map(|text| self.with_text(text)).collect();
        cases.extend(self.words.plainer().into_iter().map(|words| TextCase {
            words,
            ..self.clone()
        }));
        cases.extend(self.ticks.plainer().into_iter().map(|ticks| TextCase {
            ticks,
            ..self.clone()
        }));
        cases
    }
}

impl fmt::Display for TextCase {
    fn fmt(&self, out: &mut fmt::Formatter) -> fmt::Result {
        let length = self.text.len();
        let text = String::from_utf8_lossy(&self.text[..length.min(MOST_SHOWN)]);
        writeln!(out, "text of {length} bytes {text:?}")?;
        write!(out, "words: {}, ticks: {}", self.words, self.ticks)
    }
}
