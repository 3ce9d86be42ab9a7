//! The two implementations behind one interface: slices and packed numbers,
//! as in `include/shabgozim.h`.

mod functions;
mod library;
mod paper;
mod paper_blocks;
mod paper_h;
mod paper_operators;
mod paper_texts;
mod paper_why;
mod typed;

pub use functions::{Functions, List, Sides};
pub use library::Library;
pub use paper::Paper;
pub use shabgozim::raw::Merged;
pub use typed::Typed;

pub trait Side {
    fn power_on(state: &mut [u16]) -> u32;
    fn in_range(state: &[u16]) -> u32;
    fn word(state: &mut [u16], word: u16) -> u32;
    fn tick(state: &mut [u16]) -> u32;
    fn list(state: &mut [u16], words: &[u16], ticks: &[u32], outcomes: &mut [u16]) -> u32;
    fn decode(word: u16) -> u32;
    fn decode_by_byte(word: u16) -> u32;
    fn encode(kind: u8, data: u16) -> u32;

    fn translate(state: &[u16], plan: &[u8], words: &mut [u16], ticks: &mut [u32]) -> u64;
    fn listing(state: &[u16], plan: &[u8], text: &mut [u8]) -> u64;
    fn report(state: &mut [u16], plan: &[u8], text: &mut [u8]) -> u64;
    fn refusal(number: u8, place: u32, plan: &[u8], text: &mut [u8]) -> u32;

    fn read_list(text: &[u8], words: &mut [u16], ticks: &mut [u32]) -> u64;
    fn inspection(words: &[u16], ticks: &[u32], text: &mut [u8]) -> u64;
    fn list_refusal(number: u8, line: u32, text: &mut [u8]) -> u32;

    fn upper_bytes(text: &mut [u8]) -> u64;

    fn write_ir(state: &[u16], shown: Shown, readings: &[u16], block: &mut [u16]) -> u32;
    fn write_ccd(state: &[u16], shown: Shown, readings: &[u16], block: &mut [u16]) -> u32;
    fn read_ir(block: &[u16], meaning: &mut [u16]) -> u32;
    fn read_ccd(block: &[u16], meaning: &mut [u16]) -> u32;

    fn h_lighted(map: &[u8]) -> u32;
    fn h_readout(map: &[u8]) -> u32;
    fn h_decode(word: u16) -> u32;
    fn h_encode(request: u8, value: u16) -> u32;
    fn h_picture(map: &[u8], text: &mut [u8]) -> u64;
    fn h_refusal(number: u8, text: &mut [u8]) -> u32;

    fn group(kind: u8) -> u32;
    fn pass_on(state: &mut [u16], operator: u8, word: u16) -> u32;
    fn merge(ccd: &[u64], infrared: &[u64], merged: &mut [u64]) -> Merged;
    fn merge_texts(ccd: &[u8], infrared: &[u8], text: &mut [u8]) -> u64;
    fn operator_refusal(number: u8, text: &mut [u8]) -> u32;

    fn why(state: &[u16], word: u16) -> u32;
    fn explanation(why: u32, text: &mut [u8]) -> u32;
}

/// What a writer is given besides state and readings.
#[derive(Clone, Copy, Debug, Default, PartialEq, Eq)]
pub struct Shown {
    pub flags: u32,
    pub ended: u32,
    pub bits: u32,
}
