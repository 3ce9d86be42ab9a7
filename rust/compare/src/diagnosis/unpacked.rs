//! The wrapper's diagnoses against the paper's own types, and their lines.

use crate::random::Random;
use crate::reduce::Counted;
use crate::same::same;
use crate::sides::{Sides, Typed};
use crate::states::{self, Numbers};
use crate::steps::words_of_each_kind;
use crate::words::Words;
use paper::Why;
use shabgozim::{place, raw, Diagnosis, State};

/// Words of each kind from every limit, likely ones from states of every sort,
/// and the line of every diagnosis.
pub fn answers(sides: &Sides, random: &mut Random, times: u32) -> Counted {
    let paper = &sides.typed;
    let mut count = every_line(paper)?;
    for state in states::at_limits(&states::power_on()) {
        for word in words_of_each_kind(random) {
            count += diagnosis(paper, &state, word)?;
        }
    }
    let words = Words::new();
    for _ in 0..100_000 * times {
        let state = states::any(random);
        let word = words.likely(random, state[place::SET_WORDS]);
        count += diagnosis(paper, &state, word)?;
    }
    Ok(count)
}

/// A diagnosis, its number, whether the word is taken, and the line.
fn diagnosis(paper: &Typed, state: &Numbers, word: u16) -> Counted {
    let found = State { numbers: *state }.why(word);
    let found = (found, found.number(), found.is_taken(), found.to_string());
    let why = (paper.why)(&paper::State::from_array(state), word);
    let answer = (paper.why_answer)(why);
    let (number, is_taken) = (answer as u8, why == Why::Taken);
    let expected = (diagnosis_of(why), number, is_taken, line(paper, answer));
    match found == expected {
        true => Ok(1),
        false => {
            let state = states::describe(state);
            let what = format!("why word {word:04X} from {state}");
            same(what, found, expected)
        }
    }
}

fn diagnosis_of(why: Why) -> Diagnosis {
    match why {
        Why::Taken => Diagnosis::Taken,
        Why::StateOutOfRange => Diagnosis::StateOutOfRange,
        Why::Busy { ticks } => Diagnosis::Busy { ticks },
        Why::CoverMoving { ticks } => Diagnosis::CoverMoving { ticks },
        Why::UnknownIdentifier { word } => Diagnosis::UnknownIdentifier { word },
        Why::DataOutOfRange { word, kind } => Diagnosis::DataOutOfRange {
            word,
            kind: kind.index(),
        },
        Why::OutOfTurn { due } => Diagnosis::OutOfTurn { due: due.index() },
    }
}

/// The line of an answer, without its newline.
fn line(paper: &Typed, answer: u32) -> String {
    let line = (paper.explanation)(answer).unwrap_or_default();
    line.trim_end_matches('\n').into()
}

/// The lines of all diagnoses, also of those that no state gives.
fn every_line(paper: &Typed) -> Counted {
    let mut count = shown(paper, Diagnosis::Taken, 0)?;
    count += shown(paper, Diagnosis::StateOutOfRange, 21)?;
    for number in 0..=u16::MAX {
        let (word, ticks, detail) = (number, number, u32::from(number) << 8);
        count += shown(paper, Diagnosis::Busy { ticks }, 22 | detail)?;
        let of_cover = 22 | detail | 1 << 31;
        count += shown(paper, Diagnosis::CoverMoving { ticks }, of_cover)?;
        count += shown(paper, Diagnosis::UnknownIdentifier { word }, 23 | detail)?;
        let kind = (raw::decode(word) >> 16) as u8;
        count += shown(paper, Diagnosis::DataOutOfRange { word, kind }, 24 | detail)?;
    }
    for due in 0..=u8::MAX {
        let answer = 25 | u32::from(due) << 8;
        count += shown(paper, Diagnosis::OutOfTurn { due }, answer)?;
    }
    Ok(count)
}

/// A diagnosis by its number and line, and those of a packed answer.
fn shown(paper: &Typed, diagnosis: Diagnosis, answer: u32) -> Counted {
    let found = (diagnosis.number(), diagnosis.to_string());
    let expected = (answer as u8, line(paper, answer));
    same(format_args!("{diagnosis:?}"), found, expected)
}
