//! Why a word did nothing: the rule that stopped it, and what it is about.

use crate::raw;
use crate::state::State;
use crate::text::line;
use crate::words::{decode, kind, Decoded};
use std::fmt::{self, Display, Formatter};

/// Bytes that have room for every explanation.
pub const EXPLANATION_LENGTH: usize = 256;

/// Where an answer has the ticks, the word or the kind.
const DETAIL_BIT: u32 = 8;
/// The bit of an answer by which 22 is the moving cover.
const COVER_BIT: u32 = 1 << 31;

/// The rule that stops a word, with what it is about. `to_string` gives the
/// library's line about it, without a newline.
#[derive(Clone, Copy, Debug, PartialEq, Eq)]
pub enum Diagnosis {
    /// No rule stops the word.
    Taken,
    /// Document 01's 21.
    StateOutOfRange,
    /// Document 01's 22: the head is busy for so many ticks more, and the word is
    /// not STOP.
    Busy { ticks: u16 },
    /// Document 01's 22: the cover moves for so many ticks more, and the word is
    /// COVER. The head is idle.
    CoverMoving { ticks: u16 },
    /// Document 01's 23.
    UnknownIdentifier { word: u16 },
    /// Document 01's 24: the kind of the word's identifier does not allow its
    /// data.
    DataOutOfRange { word: u16, kind: u8 },
    /// Document 01's 25, with the kind of the mirror word that was due: SIN M with
    /// no set begun, else the next one of the set.
    OutOfTurn { due: u8 },
}

impl State {
    /// Why the head ignores this word, or that it takes it: the rule that
    /// [`State::word`] applies. The head does not get the word.
    ///
    /// ```
    /// use shabgozim::{Diagnosis, State};
    ///
    /// let mut head = State::power_on();
    /// head.word(0x8000);
    /// let why = head.why(0x4000);
    /// assert_eq!(why, Diagnosis::Busy { ticks: 158 });
    /// assert_eq!(why.number(), 22);
    /// let words = "the head is busy: 158 ticks left, 1.58 s; only STOP is taken";
    /// assert_eq!(why.to_string(), words);
    /// assert_eq!(head.why(0xC000), Diagnosis::Taken);
    /// ```
    pub fn why(&self, word: u16) -> Diagnosis {
        Diagnosis::of(raw::why(&self.numbers, word))
    }
}

impl Diagnosis {
    fn of(answer: u32) -> Diagnosis {
        let detail = (answer >> DETAIL_BIT) as u16;
        match answer as u8 {
            0 => Diagnosis::Taken,
            22 if answer & COVER_BIT != 0 => Diagnosis::CoverMoving { ticks: detail },
            22 => Diagnosis::Busy { ticks: detail },
            23 => Diagnosis::UnknownIdentifier { word: detail },
            24 => Diagnosis::DataOutOfRange {
                word: detail,
                kind: kind_of(detail),
            },
            25 => Diagnosis::OutOfTurn { due: detail as u8 },
            _ => Diagnosis::StateOutOfRange,
        }
    }

    /// The inverse of `of`. The kind of [`Diagnosis::DataOutOfRange`] is the
    /// word's, and has no place of its own.
    fn packed(self) -> u32 {
        let detail = match self {
            Diagnosis::Taken | Diagnosis::StateOutOfRange => 0,
            Diagnosis::Busy { ticks } | Diagnosis::CoverMoving { ticks } => ticks,
            Diagnosis::UnknownIdentifier { word } => word,
            Diagnosis::DataOutOfRange { word, .. } => word,
            Diagnosis::OutOfTurn { due } => due.into(),
        };
        let cover = match self {
            Diagnosis::CoverMoving { .. } => COVER_BIT,
            _ => 0,
        };
        u32::from(self.number()) | u32::from(detail) << DETAIL_BIT | cover
    }

    /// Document 01's number of the cause; 0 for a word that is taken.
    pub fn number(self) -> u8 {
        match self {
            Diagnosis::Taken => 0,
            Diagnosis::StateOutOfRange => 21,
            Diagnosis::Busy { .. } | Diagnosis::CoverMoving { .. } => 22,
            Diagnosis::UnknownIdentifier { .. } => 23,
            Diagnosis::DataOutOfRange { .. } => 24,
            Diagnosis::OutOfTurn { .. } => 25,
        }
    }

    /// Whether the head takes the word.
    pub fn is_taken(self) -> bool {
        self == Diagnosis::Taken
    }
}

impl Display for Diagnosis {
    fn fmt(&self, formatter: &mut Formatter<'_>) -> fmt::Result {
        let mut text = vec![0; EXPLANATION_LENGTH];
        let length = raw::explanation(self.packed(), &mut text);
        formatter.pad(&line(text, length))
    }
}

/// The kind of a word's identifier. The library has 24 for known ones alone.
fn kind_of(word: u16) -> u8 {
    match decode(word) {
        Decoded::Word { kind, .. } | Decoded::OutOfRange { kind } => kind,
        Decoded::Unknown => kind::COUNT,
    }
}
