//! The C functions over slices, with their answers still packed in numbers.
//!
//! Slices may have any length and hold anything: the library judges both. It
//! keeps no memory of its own and holds on to no slice.

use crate::ffi;

/// Writes the power-on state: 0, or 21 where there are not 35 places.
pub fn power_on(state: &mut [u16]) -> u32 {
    // SAFETY: the pointer and length are those of a slice.
    unsafe { ffi::shabgozim_power_on(state.as_mut_ptr(), state.len()) }
}

/// 0 for a state in range, else 21.
pub fn in_range(state: &[u16]) -> u32 {
    // SAFETY: as above.
    unsafe { ffi::shabgozim_in_range(state.as_ptr(), state.len()) }
}

/// Gives the head a word: 0 taken, 1 exposure, 2 housekeeping, a cover word
/// itself, or 21 to 25.
pub fn word(state: &mut [u16], word: u16) -> u32 {
    // SAFETY: as above.
    unsafe { ffi::shabgozim_word(state.as_mut_ptr(), state.len(), word) }
}

/// Why a head in this state ignores a word. Bits 0 to 7: number (0 taken, or 21
/// to 25); 8 to 23: for 22 the ticks left, for 23 and 24 the word, for 25 the
/// kind of the mirror word that was due, else 0; 31: set where 22 is the moving
/// cover.
pub fn why(state: &[u16], word: u16) -> u32 {
    // SAFETY: as above.
    unsafe { ffi::shabgozim_why(state.as_ptr(), state.len(), word) }
}

/// Lets a tick pass. Low eight bits: 0 nothing due, 1 blocks due after an
/// acquisition, 2 after housekeeping, 21 refused. Bits 8 to 12: flags shown.
pub fn tick(state: &mut [u16]) -> u32 {
    // SAFETY: as above.
    unsafe { ffi::shabgozim_tick(state.as_mut_ptr(), state.len()) }
}

/// Gives the head a list of timed words: 0, 21, or 31 where the ticks don't
/// rise, the lists are of unequal length or over 256, or `outcomes` is shorter
/// than they are. The outcome of each word is the answer of [`word`].
pub fn list(state: &mut [u16], words: &[u16], ticks: &[u32], outcomes: &mut [u16]) -> u32 {
    // SAFETY: as above, for four slices.
    unsafe {
        ffi::shabgozim_list(
            state.as_mut_ptr(),
            state.len(),
            words.as_ptr(),
            words.len(),
            ticks.as_ptr(),
            ticks.len(),
            outcomes.as_mut_ptr(),
            outcomes.len(),
        )
    }
}

/// Data in bits 0 to 15, kind in 16 to 23, number (0, 23, 24) in 24 to 31.
pub fn decode(word: u16) -> u32 {
    // SAFETY: plain numbers.
    unsafe { ffi::shabgozim_decode(word) }
}

/// The same by the word's upper byte.
pub fn decode_by_byte(word: u16) -> u32 {
    // SAFETY: a plain number.
    unsafe { ffi::shabgozim_decode_by_byte(word) }
}

/// Word in bits 0 to 15, number (0 or 24) in 24 to 31.
pub fn encode(kind: u8, data: u16) -> u32 {
    // SAFETY: plain numbers.
    unsafe { ffi::shabgozim_encode(kind, data) }
}

/// Translates a plan. Bits 0 to 7: number (0, or 1 to 10); 8 to 23: count;
/// 32 to 63: the end, or the place of a refusal.
pub fn translate(state: &[u16], plan: &[u8], words: &mut [u16], ticks: &mut [u32]) -> u64 {
    // SAFETY: as above, for four slices.
    unsafe {
        ffi::shabgozim_translate(
            state.as_ptr(),
            state.len(),
            plan.as_ptr(),
            plan.len(),
            words.as_mut_ptr(),
            words.len(),
            ticks.as_mut_ptr(),
            ticks.len(),
        )
    }
}

/// Writes a plan's listing. Bits 0 to 7: number (0, 1 to 9 as [`translate`], or
/// 10 where `text` is shorter); 32 to 63: the text's length for 0 and 10, else
/// the place of the refusal.
pub fn listing(state: &[u16], plan: &[u8], text: &mut [u8]) -> u64 {
    // SAFETY: as above, for three slices.
    unsafe {
        ffi::shabgozim_listing(
            state.as_ptr(),
            state.len(),
            plan.as_ptr(),
            plan.len(),
            text.as_mut_ptr(),
            text.len(),
        )
    }
}

/// Writes the report of a plan and advances the state to its end. The answer is
/// as [`listing`]'s.
pub fn report(state: &mut [u16], plan: &[u8], text: &mut [u8]) -> u64 {
    // SAFETY: as above, for three slices.
    unsafe {
        ffi::shabgozim_report(
            state.as_mut_ptr(),
            state.len(),
            plan.as_ptr(),
            plan.len(),
            text.as_mut_ptr(),
            text.len(),
        )
    }
}

/// Writes a refusal in words, with a newline: the text's length, or 0 where
/// `number` is none of 1 to 10 or `text` is shorter.
pub fn refusal(number: u8, place: u32, plan: &[u8], text: &mut [u8]) -> u32 {
    // SAFETY: as above, for two slices.
    unsafe {
        ffi::shabgozim_refusal(
            number,
            place,
            plan.as_ptr(),
            plan.len(),
            text.as_mut_ptr(),
            text.len(),
        )
    }
}

/// Reads a list from text. Bits 0 to 7: number (0, 91 to 96, or 10 where
/// `words` or `ticks` is shorter than the list); 32 to 63: the number of words
/// for 0 and 10, else the line.
pub fn read_list(text: &[u8], words: &mut [u16], ticks: &mut [u32]) -> u64 {
    // SAFETY: as above, for three slices.
    unsafe {
        ffi::shabgozim_read_list(
            text.as_ptr(),
            text.len(),
            words.as_mut_ptr(),
            words.len(),
            ticks.as_mut_ptr(),
            ticks.len(),
        )
    }
}

/// Writes the inspection of a list. Bits 0 to 7: number (0, 31 as [`list`], or
/// 10 where `text` is shorter); 8 to 23: the findings, and 32 to 63: the text's
/// length, both for 0 and 10.
pub fn inspection(words: &[u16], ticks: &[u32], text: &mut [u8]) -> u64 {
    // SAFETY: as above, for three slices.
    unsafe {
        ffi::shabgozim_inspection(
            words.as_ptr(),
            words.len(),
            ticks.as_ptr(),
            ticks.len(),
            text.as_mut_ptr(),
            text.len(),
        )
    }
}

/// Writes an answer of [`why`] in words, with a newline: the length, or 0 where
/// `why` has not the form of such an answer or `text` is shorter.
pub fn explanation(why: u32, text: &mut [u8]) -> u32 {
    // SAFETY: as above, for one slice.
    unsafe { ffi::shabgozim_explanation(why, text.as_mut_ptr(), text.len()) }
}

/// Writes a refusal of a list's text in words, with a newline: the length, or 0
/// where `number` is none of 91 to 96 or `text` is shorter.
pub fn list_refusal(number: u8, line: u32, text: &mut [u8]) -> u32 {
    // SAFETY: as above, for one slice.
    unsafe { ffi::shabgozim_list_refusal(number, line, text.as_mut_ptr(), text.len()) }
}

/// Writes the table of upper bytes. Bits 0 to 7: 0, or 10 where `text` is
/// shorter; 32 to 63: the table's length.
pub fn upper_bytes(text: &mut [u8]) -> u64 {
    // SAFETY: as above, for one slice.
    unsafe { ffi::shabgozim_upper_bytes(text.as_mut_ptr(), text.len()) }
}

/// Writes the IR block: 0, 11 or 21.
pub fn write_ir(
    state: &[u16],
    flags: u32,
    ended: u32,
    bits: u32,
    readings: &[u16],
    block: &mut [u16],
) -> u32 {
    // SAFETY: as above, for three slices.
    unsafe {
        ffi::shabgozim_write_ir(
            state.as_ptr(),
            state.len(),
            flags,
            ended,
            bits,
            readings.as_ptr(),
            readings.len(),
            block.as_mut_ptr(),
            block.len(),
        )
    }
}

/// Writes the CCD block: 0, 11 or 21.
pub fn write_ccd(
    state: &[u16],
    flags: u32,
    ended: u32,
    bits: u32,
    readings: &[u16],
    block: &mut [u16],
) -> u32 {
    // SAFETY: as above, for three slices.
    unsafe {
        ffi::shabgozim_write_ccd(
            state.as_ptr(),
            state.len(),
            flags,
            ended,
            bits,
            readings.as_ptr(),
            readings.len(),
            block.as_mut_ptr(),
            block.len(),
        )
    }
}

/// Reads an IR block: number in bits 0 to 7, place above.
pub fn read_ir(block: &[u16], meaning: &mut [u16]) -> u32 {
    // SAFETY: as above, for two slices.
    unsafe {
        ffi::shabgozim_read_ir(
            block.as_ptr(),
            block.len(),
            meaning.as_mut_ptr(),
            meaning.len(),
        )
    }
}

/// Reads a CCD block: number in bits 0 to 7, place above.
pub fn read_ccd(block: &[u16], meaning: &mut [u16]) -> u32 {
    // SAFETY: as above, for two slices.
    unsafe {
        ffi::shabgozim_read_ccd(
            block.as_ptr(),
            block.len(),
            meaning.as_mut_ptr(),
            meaning.len(),
        )
    }
}

/// The lighted pixels of a pixel map in bits 0 to 23, number (0, 41, 42) in 24
/// to 31.
pub fn h_lighted(map: &[u8]) -> u32 {
    // SAFETY: as above, for one slice.
    unsafe { ffi::shabgozim_h_lighted(map.as_ptr(), map.len()) }
}

/// The time of a pixel map's readout in microseconds in bits 0 to 23, number
/// (0, 41, 42) in 24 to 31.
pub fn h_readout(map: &[u8]) -> u32 {
    // SAFETY: as above, for one slice.
    unsafe { ffi::shabgozim_h_readout(map.as_ptr(), map.len()) }
}

/// What a request's word means: value in bits 0 to 15, meaning in 16 to 23,
/// number (0, 43, 44) in 24 to 31.
pub fn h_decode(word: u16) -> u32 {
    // SAFETY: a plain number.
    unsafe { ffi::shabgozim_h_decode(word) }
}

/// The word of a request and its value: word in bits 0 to 15, number (0, 43,
/// 44) in 24 to 31.
pub fn h_encode(request: u8, value: u16) -> u32 {
    // SAFETY: plain numbers.
    unsafe { ffi::shabgozim_h_encode(request, value) }
}

/// Writes a pixel map's picture. Bits 0 to 7: number (0, 41, 42, or 10 where
/// `text` is shorter); 32 to 63: the picture's length, for 0 and 10.
pub fn h_picture(map: &[u8], text: &mut [u8]) -> u64 {
    // SAFETY: as above, for two slices.
    unsafe { ffi::shabgozim_h_picture(map.as_ptr(), map.len(), text.as_mut_ptr(), text.len()) }
}

/// Writes a refusal of a request or a pixel map in words, with a newline: the
/// length, or 0 where `number` is none of 41 to 44 or `text` is shorter.
pub fn h_refusal(number: u8, text: &mut [u8]) -> u32 {
    // SAFETY: as above, for one slice.
    unsafe { ffi::shabgozim_h_refusal(number, text.as_mut_ptr(), text.len()) }
}

/// The group of a kind of word: 0 CCD, 1 infrared, 2 controller, 3 of a number
/// that is no kind.
pub fn group(kind: u8) -> u32 {
    // SAFETY: a plain number.
    unsafe { ffi::shabgozim_group(kind) }
}

/// Passes a word of the operator with this group (0 or 1) on to the head: 21,
/// 51 where it is not passed on, else the answer of [`word`].
pub fn pass_on(state: &mut [u16], operator_group: u8, word: u16) -> u32 {
    // SAFETY: as above, for one slice.
    unsafe { ffi::shabgozim_pass_on(state.as_mut_ptr(), state.len(), operator_group, word) }
}

/// What [`merge`] answers.
#[derive(Clone, Copy, Debug, PartialEq, Eq)]
#[repr(C)]
pub struct Merged {
    /// 0, or 52 to 54.
    pub number: u32,
    /// Whose list the rest is of: 0 CCD, 1 infrared.
    pub rest_of: u32,
    /// How many entries were merged; 0 for a refusal.
    pub count: usize,
    /// Where the rest starts in that list.
    pub rest_start: usize,
}

/// Merges two lists of entries, each tick x 65,536 + word, until one has run
/// out. A refusal writes nothing, and its rest is the empty end of `infrared`.
pub fn merge(ccd: &[u64], infrared: &[u64], merged: &mut [u64]) -> Merged {
    // SAFETY: as above, for three slices.
    unsafe {
        ffi::shabgozim_merge(
            ccd.as_ptr(),
            ccd.len(),
            infrared.as_ptr(),
            infrared.len(),
            merged.as_mut_ptr(),
            merged.len(),
        )
    }
}

/// Merges two lists that are text. Bits 0 to 7: number (0, 91 to 96, 53, or 10
/// where `text` is shorter); 8 to 23: whose text it is (0 CCD, 1 infrared), for
/// 91 to 96; 32 to 63: the line for 91 to 96, the text's length for 0 and 10.
pub fn merge_texts(ccd: &[u8], infrared: &[u8], text: &mut [u8]) -> u64 {
    // SAFETY: as above, for three slices.
    unsafe {
        ffi::shabgozim_merge_texts(
            ccd.as_ptr(),
            ccd.len(),
            infrared.as_ptr(),
            infrared.len(),
            text.as_mut_ptr(),
            text.len(),
        )
    }
}

/// Writes a refusal of a word that is not passed on or of merging in words, with
/// a newline: the length, or 0 where `number` is none of 51 to 54 or `text` is
/// shorter.
pub fn operator_refusal(number: u8, text: &mut [u8]) -> u32 {
    // SAFETY: as above, for one slice.
    unsafe { ffi::shabgozim_operator_refusal(number, text.as_mut_ptr(), text.len()) }
}
