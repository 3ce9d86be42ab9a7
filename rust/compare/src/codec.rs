//! Decoding and encoding of everything, packed and unpacked.

use crate::random::Random;
use crate::reduce::{failure, Case, Counted, Failure};
use crate::sides::{Functions, Sides};
use std::fmt;

const ALLOWED_WORDS: usize = 9133;

enum CodecCase {
    Decode(u16),
    DecodeByByte(u16),
    Encode(u8, u16),
}

impl CodecCase {
    fn answer(&self, side: &Functions) -> u32 {
        match *self {
            CodecCase::Decode(word) => (side.decode)(word),
            CodecCase::DecodeByByte(word) => (side.decode_by_byte)(word),
            CodecCase::Encode(kind, data) => (side.encode)(kind, data),
        }
    }

    /// Compares the answers.
    fn compare(self, sides: &Sides) -> Result<(), Failure> {
        match self.answer(&sides.library) == self.answer(&sides.paper) {
            true => Ok(()),
            false => Err(failure(sides, self)),
        }
    }
}

impl Case for CodecCase {
    fn difference(&self, sides: &Sides) -> Option<String> {
        let (answer, expected) = (self.answer(&sides.library), self.answer(&sides.paper));
        let text = format!("answer: library {answer:#X}, paper {expected:#X}");
        (answer != expected).then_some(text)
    }

    fn shorter(&self) -> Vec<CodecCase> {
        Vec::new()
    }
}

impl fmt::Display for CodecCase {
    fn fmt(&self, out: &mut fmt::Formatter) -> fmt::Result {
        match self {
            CodecCase::Decode(word) => write!(out, "decode {word:04X}"),
            CodecCase::DecodeByByte(word) => write!(out, "decode {word:04X} by its upper byte"),
            CodecCase::Encode(kind, data) => write!(out, "encode kind {kind} data {data:04X}"),
        }
    }
}

pub fn decode_all(sides: &Sides, _: &mut Random, _: u32) -> Counted {
    for word in 0..=u16::MAX {
        CodecCase::Decode(word).compare(sides)?;
        unpacked_alike(word, shabgozim::decode)?;
    }
    right_number_of_words(&sides.library)?;
    Ok(1 << 16)
}

/// Both second decoders; what the wrapper's finds is also compared with what
/// the paper's first one finds.
pub fn decode_all_by_byte(sides: &Sides, _: &mut Random, _: u32) -> Counted {
    for word in 0..=u16::MAX {
        CodecCase::DecodeByByte(word).compare(sides)?;
        unpacked_alike(word, shabgozim::decode_by_byte)?;
    }
    Ok(1 << 16)
}

pub fn encode_all(sides: &Sides, _: &mut Random, _: u32) -> Counted {
    for kind in 0..=u8::MAX {
        for data in 0..=u16::MAX {
            CodecCase::Encode(kind, data).compare(sides)?;
        }
    }
    Ok(1 << 24)
}

/// The wrapper's unpacked answer against the paper's own.
fn unpacked_alike(word: u16, decode: fn(u16) -> shabgozim::Decoded) -> Result<(), Failure> {
    use shabgozim::Decoded::{OutOfRange, Unknown, Word};
    let expected = match paper::decode(word) {
        paper::Decoded::Unknown => Unknown,
        paper::Decoded::OutOfRange { kind } => OutOfRange { kind: kind.index() },
        paper::Decoded::Allowed { kind, data } => Word {
            kind: kind.index(),
            data,
        },
    };
    let found = decode(word);
    let back = match found {
        Word { kind, data } => shabgozim::encode(kind, data) == Some(word),
        _ => true,
    };
    if found == expected && back {
        return Ok(());
    }
    let text = format!("decode {word:04X}: library {found:?}, paper {expected:?}");
    Err(Failure(text))
}

fn right_number_of_words(library: &Functions) -> Result<(), Failure> {
    let allowed = (0..=u16::MAX).filter(|&word| (library.decode)(word) >> 24 == 0);
    let count = allowed.count();
    match count {
        ALLOWED_WORDS => Ok(()),
        _ => Err(Failure(format!(
            "{count} allowed words, not {ALLOWED_WORDS}"
        ))),
    }
}
