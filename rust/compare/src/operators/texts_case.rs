//! Two lists merged as text on both sides, compared and made shorter.

use crate::buffer::{difference, Buffer};
use crate::reduce::{failure, Case, Counted};
use crate::room::Room;
use crate::shorter_texts;
use crate::sides::{Functions, Sides};
use crate::text_form::{answers_differ, lines_differ, written};
use shabgozim::MERGED_TEXT_LENGTH;
use std::fmt;

/// A fill that is no byte of a text.
const NO_BYTE: u8 = 0xBB;
/// What an answer has in its upper half.
const UPPER: &str = "length or line";
/// Of a longer text only the first bytes are shown.
const MOST_SHOWN: usize = 4200;

/// The texts of the CCD operator and of the infrared operator, and how many
/// places there are for the merged one.
#[derive(Clone)]
pub struct TextsCase {
    pub texts: [Vec<u8>; 2],
    pub room: Room,
}

/// Has both sides merge texts, into buffers that are used again.
pub struct TextMerger {
    sides: Sides,
    library: Buffer<u8>,
    paper: Buffer<u8>,
}

impl TextMerger {
    pub fn new(sides: &Sides) -> TextMerger {
        TextMerger {
            sides: *sides,
            library: Buffer::filled(MERGED_TEXT_LENGTH, NO_BYTE),
            paper: Buffer::filled(MERGED_TEXT_LENGTH, NO_BYTE),
        }
    }

    fn answers(&mut self, case: &TextsCase) -> (u64, u64) {
        let [ccd, infrared] = &case.texts;
        let places = case.places();
        let merge = |side: &Functions, text: &mut Buffer<u8>| {
            text.refill(NO_BYTE, places);
            (side.merge_texts)(ccd, infrared, text.lent())
        };
        let answer = merge(&self.sides.library, &mut self.library);
        (answer, merge(&self.sides.paper, &mut self.paper))
    }

    /// Compares the answers and every place of the text.
    pub fn compare(&mut self, case: &TextsCase) -> Counted {
        let (answer, expected) = self.answers(case);
        match answer == expected && self.library == self.paper {
            true => Ok(1),
            false => Err(failure(&self.sides, case.clone())),
        }
    }

    /// Compares with room for every text.
    pub fn compare_texts(&mut self, texts: [Vec<u8>; 2]) -> Counted {
        let room = Room::Every;
        self.compare(&TextsCase { texts, room })
    }
}

impl TextsCase {
    fn places(&self) -> usize {
        let [ccd, infrared] = &self.texts;
        let length = || paper::merge_texts(ccd, infrared).map_or(0, |text| text.len());
        self.room.places(length, MERGED_TEXT_LENGTH)
    }

    /// Shorter texts of one of the two.
    fn shorter_texts(&self, of: usize) -> impl Iterator<Item = TextsCase> + '_ {
        let texts = shorter_texts::shorter(&self.texts[of]).into_iter();
        texts.map(move |text| {
            let mut case = self.clone();
            case.texts[of] = text;
            case
        })
    }

    /// A number made less in both texts, where these are not long.
    fn lesser_numbers(&self) -> Vec<TextsCase> {
        let texts = self.texts.each_ref().map(Vec::as_slice);
        if texts
            .iter()
            .any(|text| text.len() > shorter_texts::MOST_BYTES)
        {
            return Vec::new();
        }
        let texts = shorter_texts::lesser_numbers(texts).into_iter();
        let cases = texts.map(|texts| TextsCase {
            texts,
            room: self.room,
        });
        cases.collect()
    }
}

impl Case for TextsCase {
    fn difference(&self, sides: &Sides) -> Option<String> {
        let mut merger = TextMerger::new(sides);
        let (answer, expected) = merger.answers(self);
        let TextMerger { library, paper, .. } = merger;
        if answer as u8 != expected as u8 {
            return answers_differ(answer, expected, UPPER);
        }
        lines_differ(written(answer, &library), written(expected, &paper))
            .or_else(|| answers_differ(answer, expected, UPPER))
            .or_else(|| difference("text", &library, &paper))
    }

    fn shorter(&self) -> Vec<TextsCase> {
        let rooms = self.room.plainer().into_iter();
        let rooms = rooms.map(|room| TextsCase {
            room,
            ..self.clone()
        });
        let texts = self.shorter_texts(0).chain(self.shorter_texts(1));
        rooms.chain(texts).chain(self.lesser_numbers()).collect()
    }
}

impl fmt::Display for TextsCase {
    fn fmt(&self, out: &mut fmt::Formatter) -> fmt::Result {
        for (whose, text) in ["CCD", "infrared"].iter().zip(&self.texts) {
            let length = text.len();
            let text = String::from_utf8_lossy(&text[..length.min(MOST_SHOWN)]);
            writeln!(out, "{whose} text of {length} bytes {text:?}")?;
        }
        write!(out, "text: {}", self.room)
    }
}
