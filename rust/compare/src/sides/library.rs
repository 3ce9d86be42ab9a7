//! The verified library, through its wrapper.

use super::{Merged, Shown, Side};
use shabgozim::raw;

pub struct Library;

impl Side for Library {
    fn power_on(state: &mut [u16]) -> u32 {
        raw::power_on(state)
    }

    fn in_range(state: &[u16]) -> u32 {
        raw::in_range(state)
    }

    fn word(state: &mut [u16], word: u16) -> u32 {
        raw::word(state, word)
    }

    fn tick(state: &mut [u16]) -> u32 {
        raw::tick(state)
    }

    fn list(state: &mut [u16], words: &[u16], ticks: &[u32], outcomes: &mut [u16]) -> u32 {
        raw::list(state, words, ticks, outcomes)
    }

    fn decode(word: u16) -> u32 {
        raw::decode(word)
    }

    fn decode_by_byte(word: u16) -> u32 {
        raw::decode_by_byte(word)
    }

    fn encode(kind: u8, data: u16) -> u32 {
        raw::encode(kind, data)
    }

    fn translate(state: &[u16], plan: &[u8], words: &mut [u16], ticks: &mut [u32]) -> u64 {
        raw::translate(state, plan, words, ticks)
    }

    fn listing(state: &[u16], plan: &[u8], text: &mut [u8]) -> u64 {
        raw::listing(state, plan, text)
    }

    fn report(state: &mut [u16], plan: &[u8], text: &mut [u8]) -> u64 {
        raw::report(state, plan, text)
    }

    fn refusal(number: u8, place: u32, plan: &[u8], text: &mut [u8]) -> u32 {
        raw::refusal(number, place, plan, text)
    }

    fn read_list(text: &[u8], words: &mut [u16], ticks: &mut [u32]) -> u64 {
        raw::read_list(text, words, ticks)
    }

    fn inspection(words: &[u16], ticks: &[u32], text: &mut [u8]) -> u64 {
        raw::inspection(words, ticks, text)
    }

    fn list_refusal(number: u8, line: u32, text: &mut [u8]) -> u32 {
        raw::list_refusal(number, line, text)
    }

    fn upper_bytes(text: &mut [u8]) -> u64 {
        raw::upper_bytes(text)
    }

    fn write_ir(state: &[u16], shown: Shown, readings: &[u16], block: &mut [u16]) -> u32 {
        raw::write_ir(state, shown.flags, shown.ended, shown.bits, readings, block)
    }

    fn write_ccd(state: &[u16], shown: Shown, readings: &[u16], block: &mut [u16]) -> u32 {
        raw::write_ccd(state, shown.flags, shown.ended, shown.bits, readings, block)
    }

    fn read_ir(block: &[u16], meaning: &mut [u16]) -> u32 {
        raw::read_ir(block, meaning)
    }

    fn read_ccd(block: &[u16], meaning: &mut [u16]) -> u32 {
        raw::read_ccd(block, meaning)
    }

    fn h_lighted(map: &[u8]) -> u32 {
        raw::h_lighted(map)
    }

    fn h_readout(map: &[u8]) -> u32 {
        raw::h_readout(map)
    }

    fn h_decode(word: u16) -> u32 {
        raw::h_decode(word)
    }

    fn h_encode(request: u8, value: u16) -> u32 {
        raw::h_encode(request, value)
    }

    fn h_picture(map: &[u8], text: &mut [u8]) -> u64 {
        raw::h_picture(map, text)
    }

    fn h_refusal(number: u8, text: &mut [u8]) -> u32 {
        raw::h_refusal(number, text)
    }

    fn group(kind: u8) -> u32 {
        raw::group(kind)
    }

    fn pass_on(state: &mut [u16], operator: u8, word: u16) -> u32 {
        raw::pass_on(state, operator, word)
    }

    fn merge(ccd: &[u64], infrared: &[u64], merged: &mut [u64]) -> Merged {
        raw::merge(ccd, infrared, merged)
    }

    fn merge_texts(ccd: &[u8], infrared: &[u8], text: &mut [u8]) -> u64 {
        raw::merge_texts(ccd, infrared, text)
    }

    fn operator_refusal(number: u8, text: &mut [u8]) -> u32 {
        raw::operator_refusal(number, text)
    }

    fn why(state: &[u16], word: u16) -> u32 {
        raw::why(state, word)
    }

    fn explanation(why: u32, text: &mut [u8]) -> u32 {
        raw::explanation(why, text)
    }
}
