//! The functions of a side as values, so that a test can replace one of them.

use super::{Library, Merged, Paper, Shown, Side, Typed};

/// State, words, their ticks, and the buffer for outcomes.
pub type List = fn(&mut [u16], &[u16], &[u32], &mut [u16]) -> u32;
/// State, plan, and the buffers for words and ticks.
pub type Translate = fn(&[u16], &[u8], &mut [u16], &mut [u32]) -> u64;

/// State, plan, and the buffer for the text.
pub type Listing = fn(&[u16], &[u8], &mut [u8]) -> u64;
/// State, plan, and the buffer for the text.
pub type Report = fn(&mut [u16], &[u8], &mut [u8]) -> u64;
/// Number, place, plan, and the buffer for the text.
pub type Refusal = fn(u8, u32, &[u8], &mut [u8]) -> u32;
/// Text, and the buffers for words and ticks.
pub type ReadList = fn(&[u8], &mut [u16], &mut [u32]) -> u64;
/// Words, their ticks, and the buffer for the text.
pub type Inspection = fn(&[u16], &[u32], &mut [u8]) -> u64;
/// The CCD operator's list, the infrared operator's, and the buffer for entries.
pub type Merge = fn(&[u64], &[u64], &mut [u64]) -> Merged;
/// The CCD operator's text, the infrared operator's, and the buffer for the text.
pub type MergeTexts = fn(&[u8], &[u8], &mut [u8]) -> u64;

/// The functions of [`Side`].
#[derive(Clone, Copy)]
pub struct Functions {
    pub power_on: fn(&mut [u16]) -> u32,
    pub in_range: fn(&[u16]) -> u32,
    pub word: fn(&mut [u16], u16) -> u32,
    pub tick: fn(&mut [u16]) -> u32,
    pub list: List,
    pub decode: fn(u16) -> u32,
    pub decode_by_byte: fn(u16) -> u32,
    pub encode: fn(u8, u16) -> u32,
    pub translate: Translate,
    pub listing: Listing,
    pub report: Report,
    pub refusal: Refusal,
    pub read_list: ReadList,
    pub inspection: Inspection,
    pub list_refusal: fn(u8, u32, &mut [u8]) -> u32,
    pub upper_bytes: fn(&mut [u8]) -> u64,
    pub write_ir: fn(&[u16], Shown, &[u16], &mut [u16]) -> u32,
    pub write_ccd: fn(&[u16], Shown, &[u16], &mut [u16]) -> u32,
    pub read_ir: fn(&[u16], &mut [u16]) -> u32,
    pub read_ccd: fn(&[u16], &mut [u16]) -> u32,
    pub h_lighted: fn(&[u8]) -> u32,
    pub h_readout: fn(&[u8]) -> u32,
    pub h_decode: fn(u16) -> u32,
    pub h_encode: fn(u8, u16) -> u32,
    pub h_picture: fn(&[u8], &mut [u8]) -> u64,
    pub h_refusal: fn(u8, &mut [u8]) -> u32,
    pub group: fn(u8) -> u32,
    pub pass_on: fn(&mut [u16], u8, u16) -> u32,
    pub merge: Merge,
    pub merge_texts: MergeTexts,
    pub operator_refusal: fn(u8, &mut [u8]) -> u32,
    pub why: fn(&[u16], u16) -> u32,
    pub explanation: fn(u32, &mut [u8]) -> u32,
}

/// The two sides of a comparison.
#[derive(Clone, Copy)]
pub struct Sides {
    pub library: Functions,
    pub paper: Functions,
    /// The wrapper's functions with types are compared with these.
    pub typed: Typed,
}

impl Functions {
    pub const fn of<S: Side>() -> Functions {
        Functions {
            power_on: S::power_on,
            in_range: S::in_range,
            word: S::word,
            tick: S::tick,
            list: S::list,
            decode: S::decode,
            decode_by_byte: S::decode_by_byte,
            encode: S::encode,
            translate: S::translate,
            listing: S::listing,
            report: S::report,
            refusal: S::refusal,
            read_list: S::read_list,
            inspection: S::inspection,
            list_refusal: S::list_refusal,
            upper_bytes: S::upper_bytes,
            write_ir: S::write_ir,
            write_ccd: S::write_ccd,
            read_ir: S::read_ir,
            read_ccd: S::read_ccd,
            h_lighted: S::h_lighted,
            h_readout: S::h_readout,
            h_decode: S::h_decode,
            h_encode: S::h_encode,
            h_picture: S::h_picture,
            h_refusal: S::h_refusal,
            group: S::group,
            pass_on: S::pass_on,
            merge: S::merge,
            merge_texts: S::merge_texts,
            operator_refusal: S::operator_refusal,
            why: S::why,
            explanation: S::explanation,
        }
    }
}

impl Sides {
    /// The two sides as they are.
    pub const LIBRARY_AND_PAPER: Sides = Sides {
        library: Functions::of::<Library>(),
        paper: Functions::of::<Paper>(),
        typed: Typed::PAPER,
    };
}
