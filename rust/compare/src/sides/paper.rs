//! The implementation written from document 01, behind the same interface.
//!
//! The `paper_` functions are never inlined and keep their names, so that
//! instruction counts can be taken of each.

use super::{paper_blocks as blocks, paper_h as h, paper_operators as operators};
use super::{paper_texts as texts, paper_why as why, Merged, Shown, Side};
use paper::state::STATE_LENGTH;
use paper::{Decoded, ErrorFlags, State, Task, Ticked};

pub struct Paper;

pub const STATE_REFUSED: u32 = 21;
const UNKNOWN: u32 = 23 << 24;
const OUT_OF_RANGE: u32 = 24 << 24;

impl Side for Paper {
    fn power_on(state: &mut [u16]) -> u32 {
        paper_power_on(state)
    }

    fn in_range(state: &[u16]) -> u32 {
        paper_in_range(state)
    }

    fn word(state: &mut [u16], word: u16) -> u32 {
        paper_word(state, word)
    }

    fn tick(state: &mut [u16]) -> u32 {
        paper_tick(state)
    }

    fn list(state: &mut [u16], words: &[u16], ticks: &[u32], outcomes: &mut [u16]) -> u32 {
        paper_list(state, words, ticks, outcomes)
    }

    fn decode(word: u16) -> u32 {
        paper_decode(word)
    }

    fn decode_by_byte(word: u16) -> u32 {
        paper_decode_by_byte(word)
    }

    fn encode(kind: u8, data: u16) -> u32 {
        paper_encode(kind, data)
    }

    fn translate(state: &[u16], plan: &[u8], words: &mut [u16], ticks: &mut [u32]) -> u64 {
        paper_translate(state, plan, words, ticks)
    }

    fn listing(state: &[u16], plan: &[u8], text: &mut [u8]) -> u64 {
        texts::listing(state, plan, text)
    }

    fn report(state: &mut [u16], plan: &[u8], text: &mut [u8]) -> u64 {
        texts::report(state, plan, text)
    }

    fn refusal(number: u8, place: u32, plan: &[u8], text: &mut [u8]) -> u32 {
        texts::refusal(number, place, plan, text)
    }

    fn read_list(text: &[u8], words: &mut [u16], ticks: &mut [u32]) -> u64 {
        texts::read_list(text, words, ticks)
    }

    fn inspection(words: &[u16], ticks: &[u32], text: &mut [u8]) -> u64 {
        texts::inspection(words, ticks, text)
    }

    fn list_refusal(number: u8, line: u32, text: &mut [u8]) -> u32 {
        texts::list_refusal(number, line, text)
    }

    fn upper_bytes(text: &mut [u8]) -> u64 {
        texts::upper_bytes(text)
    }

    fn write_ir(state: &[u16], shown: Shown, readings: &[u16], block: &mut [u16]) -> u32 {
        blocks::paper_write_ir(state, shown, readings, block)
    }

    fn write_ccd(state: &[u16], shown: Shown, readings: &[u16], block: &mut [u16]) -> u32 {
        blocks::paper_write_ccd(state, shown, readings, block)
    }

    fn read_ir(block: &[u16], meaning: &mut [u16]) -> u32 {
        blocks::paper_read_ir(block, meaning)
    }

    fn read_ccd(block: &[u16], meaning: &mut [u16]) -> u32 {
        blocks::paper_read_ccd(block, meaning)
    }

    fn h_lighted(map: &[u8]) -> u32 {
        h::paper_h_lighted(map)
    }

    fn h_readout(map: &[u8]) -> u32 {
        h::paper_h_readout(map)
    }

    fn h_decode(word: u16) -> u32 {
        h::paper_h_decode(word)
    }

    fn h_encode(request: u8, value: u16) -> u32 {
        h::paper_h_encode(request, value)
    }

    fn h_picture(map: &[u8], text: &mut [u8]) -> u64 {
        h::picture(map, text)
    }

    fn h_refusal(number: u8, text: &mut [u8]) -> u32 {
        h::refusal(number, text)
    }

    fn group(kind: u8) -> u32 {
        operators::paper_group(kind)
    }

    fn pass_on(state: &mut [u16], operator: u8, word: u16) -> u32 {
        operators::paper_pass_on(state, operator, word)
    }

    fn merge(ccd: &[u64], infrared: &[u64], merged: &mut [u64]) -> Merged {
        operators::paper_merge(ccd, infrared, merged)
    }

    fn merge_texts(ccd: &[u8], infrared: &[u8], text: &mut [u8]) -> u64 {
        operators::merge_texts(ccd, infrared, text)
    }

    fn operator_refusal(number: u8, text: &mut [u8]) -> u32 {
        operators::refusal(number, text)
    }

    fn why(state: &[u16], word: u16) -> u32 {
        why::paper_why(state, word)
    }

    fn explanation(why: u32, text: &mut [u8]) -> u32 {
        why::explanation(why, text)
    }
}

pub fn places(state: &mut [u16]) -> Option<&mut [u16; STATE_LENGTH]> {
    state.try_into().ok()
}

pub fn load(state: &[u16]) -> Option<State> {
    state.try_into().ok().map(State::from_array)
}

#[no_mangle]
#[inline(never)]
fn paper_power_on(state: &mut [u16]) -> u32 {
    let Some(places) = places(state) else {
        return STATE_REFUSED;
    };
    *places = paper::power_on().to_array();
    0
}

#[no_mangle]
#[inline(never)]
fn paper_in_range(state: &[u16]) -> u32 {
    match load(state) {
        Some(state) if paper::in_range(&state) => 0,
        _ => STATE_REFUSED,
    }
}

#[no_mangle]
#[inline(never)]
fn paper_word(state: &mut [u16], word: u16) -> u32 {
    let Some(places) = places(state) else {
        return STATE_REFUSED;
    };
    let mut head = State::from_array(places);
    let answer = paper::word(&mut head, word);
    *places = head.to_array();
    u32::from(answer)
}

#[no_mangle]
#[inline(never)]
fn paper_tick(state: &mut [u16]) -> u32 {
    let Some(places) = places(state) else {
        return STATE_REFUSED;
    };
    let mut head = State::from_array(places);
    let ticked = paper::tick(&mut head);
    *places = head.to_array();
    match ticked {
        Ticked::Refused(number) => u32::from(number),
        Ticked::NothingDue => 0,
        Ticked::BlocksDue { task, flags } => task_number(task) | flag_bits(flags) << 8,
    }
}

fn task_number(task: Task) -> u32 {
    match task {
        Task::Acquisition => 1,
        Task::Housekeeping => 2,
    }
}

fn flag_bits(flags: ErrorFlags) -> u32 {
    u32::from(flags.ir_time)
        | u32::from(flags.ir_word) << 1
        | u32::from(flags.ir_scan) << 2
        | u32::from(flags.vis_time) << 3
        | u32::from(flags.vis_word) << 4
}

#[no_mangle]
#[inline(never)]
fn paper_list(state: &mut [u16], words: &[u16], ticks: &[u32], outcomes: &mut [u16]) -> u32 {
    let Some(places) = places(state) else {
        return STATE_REFUSED;
    };
    let mut head = State::from_array(places);
    let answer = paper::list(&mut head, words, ticks, outcomes);
    *places = head.to_array();
    u32::from(answer)
}

#[no_mangle]
#[inline(never)]
fn paper_decode(word: u16) -> u32 {
    packed(paper::decode(word))
}

#[no_mangle]
#[inline(never)]
fn paper_decode_by_byte(word: u16) -> u32 {
    packed(paper::decode_by_byte(word))
}

fn packed(decoded: Decoded) -> u32 {
    match decoded {
        Decoded::Allowed { kind, data } => u32::from(kind.index()) << 16 | u32::from(data),
        Decoded::Unknown => UNKNOWN,
        Decoded::OutOfRange { kind } => OUT_OF_RANGE | u32::from(kind.index()) << 16,
    }
}

#[no_mangle]
#[inline(never)]
fn paper_encode(kind: u8, data: u16) -> u32 {
    paper::encode(kind, data).map_or(OUT_OF_RANGE, u32::from)
}

#[no_mangle]
#[inline(never)]
fn paper_translate(state: &[u16], plan: &[u8], words: &mut [u16], ticks: &mut [u32]) -> u64 {
    const NOT_READY: u64 = 1;
    let Some(state) = load(state) else {
        return NOT_READY;
    };
    match paper::translate(&state, plan, words, ticks) {
        Ok(done) => (done.count as u64) << 8 | u64::from(done.end) << 32,
        Err(refusal) => {
            let count = refusal.count.unwrap_or(0) as u64;
            u64::from(refusal.number) | count << 8 | (refusal.place as u64) << 32
        }
    }
}
