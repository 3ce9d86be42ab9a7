//! The C functions, as `include/shabgozim.h` declares them.

use crate::raw::Merged;

extern "C" {
    pub fn shabgozim_power_on(state: *mut u16, state_len: usize) -> u32;
    pub fn shabgozim_in_range(state: *const u16, state_len: usize) -> u32;
    pub fn shabgozim_word(state: *mut u16, state_len: usize, word: u16) -> u32;
    pub fn shabgozim_why(state: *const u16, state_len: usize, word: u16) -> u32;
    pub fn shabgozim_tick(state: *mut u16, state_len: usize) -> u32;
    pub fn shabgozim_list(
        state: *mut u16,
        state_len: usize,
        words: *const u16,
        words_len: usize,
        ticks: *const u32,
        ticks_len: usize,
        outcomes: *mut u16,
        outcomes_len: usize,
    ) -> u32;
    pub fn shabgozim_decode(word: u16) -> u32;
    pub fn shabgozim_decode_by_byte(word: u16) -> u32;
    pub fn shabgozim_encode(kind: u8, data: u16) -> u32;
    pub fn shabgozim_translate(
        state: *const u16,
        state_len: usize,
        plan: *const u8,
        plan_len: usize,
        words: *mut u16,
        words_len: usize,
        ticks: *mut u32,
        ticks_len: usize,
    ) -> u64;
    pub fn shabgozim_listing(
        state: *const u16,
        state_len: usize,
        plan: *const u8,
        plan_len: usize,
        text: *mut u8,
        text_len: usize,
    ) -> u64;
    pub fn shabgozim_report(
        state: *mut u16,
        state_len: usize,
        plan: *const u8,
        plan_len: usize,
        text: *mut u8,
        text_len: usize,
    ) -> u64;
    pub fn shabgozim_refusal(
        number: u8,
        place: u32,
        plan: *const u8,
        plan_len: usize,
        text: *mut u8,
        text_len: usize,
    ) -> u32;
    pub fn shabgozim_read_list(
        text: *const u8,
        text_len: usize,
        words: *mut u16,
        words_len: usize,
        ticks: *mut u32,
        ticks_len: usize,
    ) -> u64;
    pub fn shabgozim_inspection(
        words: *const u16,
        words_len: usize,
        ticks: *const u32,
        ticks_len: usize,
        text: *mut u8,
        text_len: usize,
    ) -> u64;
    pub fn shabgozim_explanation(why: u32, text: *mut u8, text_len: usize) -> u32;
    pub fn shabgozim_list_refusal(number: u8, line: u32, text: *mut u8, text_len: usize) -> u32;
    pub fn shabgozim_upper_bytes(text: *mut u8, text_len: usize) -> u64;
    pub fn shabgozim_write_ir(
        state: *const u16,
        state_len: usize,
        flags: u32,
        ended: u32,
        bits: u32,
        readings: *const u16,
        readings_len: usize,
        block: *mut u16,
        block_len: usize,
    ) -> u32;
    pub fn shabgozim_write_ccd(
        state: *const u16,
        state_len: usize,
        flags: u32,
        ended: u32,
        bits: u32,
        readings: *const u16,
        readings_len: usize,
        block: *mut u16,
        block_len: usize,
    ) -> u32;
    pub fn shabgozim_read_ir(
        block: *const u16,
        block_len: usize,
        meaning: *mut u16,
        meaning_len: usize,
    ) -> u32;
    pub fn shabgozim_read_ccd(
        block: *const u16,
        block_len: usize,
        meaning: *mut u16,
        meaning_len: usize,
    ) -> u32;
    pub fn shabgozim_h_lighted(map: *const u8, map_len: usize) -> u32;
    pub fn shabgozim_h_readout(map: *const u8, map_len: usize) -> u32;
    pub fn shabgozim_h_decode(word: u16) -> u32;
    pub fn shabgozim_h_encode(request: u8, value: u16) -> u32;
    pub fn shabgozim_h_picture(
        map: *const u8,
        map_len: usize,
        text: *mut u8,
        text_len: usize,
    ) -> u64;
    pub fn shabgozim_h_refusal(number: u8, text: *mut u8, text_len: usize) -> u32;
    pub fn shabgozim_group(kind: u8) -> u32;
    pub fn shabgozim_pass_on(
        state: *mut u16,
        state_len: usize,
        operator_group: u8,
        word: u16,
    ) -> u32;
    pub fn shabgozim_merge(
        ccd: *const u64,
        ccd_len: usize,
        infrared: *const u64,
        infrared_len: usize,
        merged: *mut u64,
        merged_len: usize,
    ) -> Merged;
    pub fn shabgozim_merge_texts(
        ccd: *const u8,
        ccd_len: usize,
        infrared: *const u8,
        infrared_len: usize,
        text: *mut u8,
        text_len: usize,
    ) -> u64;
    pub fn shabgozim_operator_refusal(number: u8, text: *mut u8, text_len: usize) -> u32;
}
