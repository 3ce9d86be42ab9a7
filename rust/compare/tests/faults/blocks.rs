//! Faults in the two housekeeping blocks.

use crate::fault::{changes, words_set, Fault};
use compare::sides::{Paper, Shown, Side};
use shabgozim::IR_LENGTH;

pub const FAULTS: &[Fault] = &[
    Fault {
        name: "a bit of the IR block is moved",
        put: |sides| sides.paper.write_ir = annealing_in_bit_10,
        part: "blocks written",
        is_reduced: |text| {
            text.ends_with("buffer[19]: library 0x202, paper 0x402") && changes(text) == 1
        },
    },
    Fault {
        name: "a refused IR block is written to",
        put: |sides| sides.paper.write_ir = writes_on_refusal,
        part: "blocks written",
        is_reduced: |text| text.contains("\nbuffer[0]: ") && changes(text) == 1,
    },
    Fault {
        name: "two bits of the IR block are read in each other's place",
        put: |sides| sides.paper.read_ir = not_closed_for_not_open,
        part: "blocks read",
        // Y1 and Y2 of the reduced window, and the flags.
        is_reduced: |text| words_set(text) <= 3,
    },
    Fault {
        name: "an IR block may be one word longer",
        put: |sides| sides.paper.read_ir = reads_21_words,
        part: "block lengths",
        is_reduced: |text| text.starts_with("read Ir") && words_set(text) == 0,
    },
];

fn annealing_in_bit_10(state: &[u16], shown: Shown, readings: &[u16], block: &mut [u16]) -> u32 {
    const ANNEALING: u16 = 1 << 9;
    let answer = Paper::write_ir(state, shown, readings, block);
    if answer == 0 && block[19] & ANNEALING != 0 {
        block[19] ^= ANNEALING | ANNEALING << 1;
    }
    answer
}

fn writes_on_refusal(state: &[u16], shown: Shown, readings: &[u16], block: &mut [u16]) -> u32 {
    let answer = Paper::write_ir(state, shown, readings, block);
    if answer == 21 {
        block[0] = readings[0];
    }
    answer
}

fn not_closed_for_not_open(block: &[u16], meaning: &mut [u16]) -> u32 {
    const NOT_CLOSED: usize = 29;
    let answer = Paper::read_ir(block, meaning);
    if answer == 0 {
        meaning.swap(NOT_CLOSED, NOT_CLOSED + 1);
    }
    answer
}

fn reads_21_words(block: &[u16], meaning: &mut [u16]) -> u32 {
    match block.len() {
        21 => Paper::read_ir(&block[..IR_LENGTH], meaning),
        _ => Paper::read_ir(block, meaning),
    }
}
