//! Why a word did nothing (document 02, request P7): the rule that stopped it,
//! as a number and in words.

use crate::head::STOP_WORD;
use crate::report::layout::seconds;
use crate::state::{in_range, State};
use crate::words::{decode, Decoded, Kind, KINDS};

/// The lowest byte of a packed answer: 0, or the rule's number in document 01.
const TAKEN: u8 = 0;
const STATE_OUT_OF_RANGE: u8 = 21;
const WRONG_TIME: u8 = 22;
const UNKNOWN_IDENTIFIER: u8 = 23;
const DATA_OUT_OF_RANGE: u8 = 24;
const OUT_OF_TURN: u8 = 25;

/// The top byte of a packed answer about the moving cover; in all others it
/// is 0.
const OF_COVER: u8 = 0x80;

/// The words of a mirror set, in turn.
const MIRROR_SET: [Kind; 4] = [Kind::SinM, Kind::SinL, Kind::CosM, Kind::CosL];

/// The rule that stops a word in a state, if one does.
#[derive(Clone, Copy, Debug, PartialEq, Eq)]
pub enum Why {
    Taken,
    StateOutOfRange,
    /// The head is busy for so many ticks more.
    Busy {
        ticks: u16,
    },
    /// The word is COVER, and the cover moves for so many ticks more.
    CoverMoving {
        ticks: u16,
    },
    UnknownIdentifier {
        word: u16,
    },
    /// The kind is that of the word's identifier.
    DataOutOfRange {
        word: u16,
        kind: Kind,
    },
    /// The word is a mirror word, and this one was due.
    OutOfTurn {
        due: Kind,
    },
}

/// What stops the word in this state: the first rule of document 01's table
/// that holds.
pub fn why(state: &State, word: u16) -> Why {
    if !in_range(state) {
        return Why::StateOutOfRange;
    }
    let ticks = state.busy;
    if ticks > 0 && word != STOP_WORD {
        return Why::Busy { ticks };
    }
    match decode(word) {
        Decoded::Unknown => Why::UnknownIdentifier { word },
        Decoded::OutOfRange { kind } => Why::DataOutOfRange { word, kind },
        Decoded::Allowed { kind, .. } => why_allowed(state, kind),
    }
}

/// What stops an allowed word that the busy rule has let through.
fn why_allowed(state: &State, kind: Kind) -> Why {
    let ticks = state.cover_motion;
    let due = MIRROR_SET[usize::from(state.mirror_set.received)];
    match kind {
        Kind::Cover if ticks > 0 => Why::CoverMoving { ticks },
        // SIN M is never out of turn.
        Kind::SinL | Kind::CosM | Kind::CosL if kind != due => Why::OutOfTurn { due },
        _ => Why::Taken,
    }
}

/// The answer packed: in bits 0-7 the rule's number or 0; in bits 8-23 the
/// ticks left, the word, or the index of the kind that was due; bit 31 for the
/// moving cover.
pub fn why_answer(why: Why) -> u32 {
    let (top, detail, number) = match why {
        Why::Taken => (0, 0, TAKEN),
        Why::StateOutOfRange => (0, 0, STATE_OUT_OF_RANGE),
        Why::Busy { ticks } => (0, ticks, WRONG_TIME),
        Why::CoverMoving { ticks } => (OF_COVER, ticks, WRONG_TIME),
        Why::UnknownIdentifier { word } => (0, word, UNKNOWN_IDENTIFIER),
        Why::DataOutOfRange { word, .. } => (0, word, DATA_OUT_OF_RANGE),
        Why::OutOfTurn { due } => (0, u16::from(due.index()), OUT_OF_TURN),
    };
    let [upper, lower] = detail.to_be_bytes();
    u32::from_be_bytes([top, upper, lower, number])
}

/// A packed answer in words, one line with its newline; none for a number that
/// has not the form of such an answer. It may have any ticks, any word and any
/// byte in the place of a kind.
pub fn explanation(why: u32) -> Option<String> {
    let detail = (why >> 8) as u16;
    let line = match why.to_be_bytes() {
        [0, 0, 0, TAKEN] => String::from("taken"),
        [0, 0, 0, STATE_OUT_OF_RANGE] => String::from("the state is out of range"),
        [0, _, _, WRONG_TIME] => {
            let left = ticks_left(detail);
            format!("the head is busy: {left}; only STOP is taken")
        }
        [OF_COVER, _, _, WRONG_TIME] => {
            let left = ticks_left(detail);
            format!("the cover moves: {left}; no COVER is taken")
        }
        [0, _, _, UNKNOWN_IDENTIFIER] => {
            format!("no kind has the identifier of word {detail:04X}")
        }
        [0, _, _, DATA_OUT_OF_RANGE] => {
            let kind = name(decode(detail).kind());
            format!("the data of word {detail:04X} are out of the range of {kind}")
        }
        [0, 0, due, OUT_OF_TURN] => {
            let due = name(KINDS.get(usize::from(due)).copied());
            format!("a mirror word out of turn: {due} was due")
        }
        _ => return None,
    };
    Some(line + "\n")
}

fn ticks_left(ticks: u16) -> String {
    let unit = if ticks == 1 { "tick" } else { "ticks" };
    let time = seconds(ticks.into());
    format!("{ticks} {unit} left, {time} s")
}

fn name(kind: Option<Kind>) -> &'static str {
    kind.map_or("unknown", Kind::name)
}
