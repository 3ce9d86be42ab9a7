//! Requests to words and back.

use super::refusal::Refusal;
use super::table::{Row, TABLE};

const PARAMETER_BITS: u16 = 0x03FF;

/// Which requests a word may be.
#[derive(Clone, Debug, PartialEq, Eq)]
pub enum Meaning {
    /// One request alone, by its number.
    Own(u8),
    /// Several requests, by their numbers, which rise.
    Shared { first: u8, others: Vec<u8> },
}

/// A word that was read.
#[derive(Clone, Debug, PartialEq, Eq)]
pub struct Read {
    pub meaning: Meaning,
    /// The whole parameter, also where all its bits are fixed.
    pub value: u16,
}

/// Finds what a word means, or refuses it with 43 or else 44.
pub fn decode(word: u16) -> Result<Read, Refusal> {
    if !TABLE.iter().any(|row| row.has_code_of(word)) {
        return Err(Refusal::UnknownRequest);
    }
    let mut requests = requests_with(word);
    let first = requests.next().ok_or(Refusal::ValueOutOfRange)?;
    let others: Vec<u8> = requests.collect();
    let meaning = match others.is_empty() {
        true => Meaning::Own(first),
        false => Meaning::Shared { first, others },
    };
    let value = word & PARAMETER_BITS;
    Ok(Read { meaning, value })
}

/// The requests that have this word.
fn requests_with(word: u16) -> impl Iterator<Item = u8> {
    let numbered = (0..).zip(&TABLE);
    let with = numbered.filter(move |(_, row): &(u8, &Row)| row.has(word));
    with.map(|(request, _)| request)
}

/// The word of a request with this value, or a refusal with 43 or else 44.
pub fn encode(request: u8, value: u16) -> Result<u16, Refusal> {
    let row = TABLE.get(usize::from(request));
    let row = row.ok_or(Refusal::UnknownRequest)?;
    if value > PARAMETER_BITS {
        return Err(Refusal::ValueOutOfRange);
    }
    let word = row.filled(value);
    match word & PARAMETER_BITS == value {
        true => Ok(word),
        false => Err(Refusal::ValueOutOfRange),
    }
}
