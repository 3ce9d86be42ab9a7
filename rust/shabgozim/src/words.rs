//! The 28 kinds of command word, from bits to meaning and back.

use crate::raw;

/// The kinds, by their number in document 01's table read row by row.
pub mod kind {
    pub const NOP: u8 = 0;
    pub const START: u8 = 1;
    pub const HK: u8 = 2;
    pub const STOP: u8 = 3;
    pub const IR_DETECTOR: u8 = 4;
    pub const IR_WIN_MODE: u8 = 5;
    pub const VDETCOM_M: u8 = 6;
    pub const VDETCOM_L: u8 = 7;
    pub const VDETADJ_M: u8 = 8;
    pub const VDETADJ_L: u8 = 9;
    pub const IR_DELAY: u8 = 10;
    pub const IR_EXPO: u8 = 11;
    pub const WIN_X1: u8 = 12;
    pub const WIN_Y1: u8 = 13;
    pub const WIN_X2: u8 = 14;
    pub const WIN_Y2: u8 = 15;
    pub const CCD_DELAY: u8 = 16;
    pub const CCD_EXPO: u8 = 17;
    pub const CCD_LAMP: u8 = 18;
    pub const IR_LAMP: u8 = 19;
    pub const SHUTTER: u8 = 20;
    pub const ANNEALING: u8 = 21;
    pub const SIN_M: u8 = 22;
    pub const SIN_L: u8 = 23;
    pub const COS_M: u8 = 24;
    pub const COS_L: u8 = 25;
    pub const SWITCH: u8 = 26;
    pub const COVER: u8 = 27;
    /// How many kinds there are.
    pub const COUNT: u8 = 28;
}

/// What a word is found to be.
#[derive(Clone, Copy, Debug, PartialEq, Eq)]
pub enum Decoded {
    /// One of the kinds, with allowed data.
    Word { kind: u8, data: u16 },
    /// An identifier outside the table: document 01's 23.
    Unknown,
    /// A known identifier with other data: document 01's 24.
    OutOfRange { kind: u8 },
}

/// Finds the kind and data of a word.
pub fn decode(word: u16) -> Decoded {
    unpacked(raw::decode(word))
}

/// The same by the word's upper byte, in a table of 256 entries: the answer is
/// that of [`decode`] for every word.
///
/// ```
/// use shabgozim::{decode_by_byte, kind, Decoded};
///
/// let data = 0xF8;
/// assert_eq!(decode_by_byte(0xE0F8), Decoded::Word { kind: kind::COS_L, data });
/// // A word whose upper byte is E1 is one of COS L's, and its data are too large.
/// assert_eq!(decode_by_byte(0xE1F8), Decoded::OutOfRange { kind: kind::COS_L });
/// ```
pub fn decode_by_byte(word: u16) -> Decoded {
    unpacked(raw::decode_by_byte(word))
}

/// What a packed answer says.
fn unpacked(answer: u32) -> Decoded {
    let kind = (answer >> 16) as u8;
    match answer >> 24 {
        0 => Decoded::Word {
            kind,
            data: answer as u16,
        },
        23 => Decoded::Unknown,
        _ => Decoded::OutOfRange { kind },
    }
}

/// The word of a kind with the given data; none where that is out of range.
pub fn encode(kind: u8, data: u16) -> Option<u16> {
    let answer = raw::encode(kind, data);
    (answer >> 24 == 0).then_some(answer as u16)
}
