//! Faults in the word codes and in what the head makes of words and ticks.

use crate::fault::{changes, Fault};
use compare::sides::{Paper, Side};
use paper::state::MIRROR_TICKS;
use paper::{State, Task, Ticked};
use shabgozim::{kind, place, STATE_LENGTH};

pub const FAULTS: &[Fault] = &[
    Fault {
        name: "one word is decoded as out of range",
        put: |sides| sides.paper.decode = decode_refuses_1805,
        part: "decode",
        is_reduced: |text| text == "decode 1805\nanswer: library 0x100005, paper 0x18100000",
    },
    Fault {
        name: "one byte is taken for the next one's kind",
        put: |sides| sides.paper.decode_by_byte = byte_1c_is_a_delay,
        part: "decode by upper byte",
        is_reduced: |text| {
            text == "decode 1C00 by its upper byte\nanswer: library 0x17000000, paper 0x100000"
        },
    },
    Fault {
        name: "an unknown identifier is taken for NOP",
        put: |sides| sides.paper.decode_by_byte = byte_04_is_nop,
        part: "decode by upper byte",
        is_reduced: |text| {
            text == "decode 0400 by its upper byte\nanswer: library 0x17000000, paper 0x0"
        },
    },
    Fault {
        name: "a byte's last word is left out of the table",
        put: |sides| sides.paper.upper_bytes = table_ends_delay_early,
        part: "table of upper bytes",
        is_reduced: |text| {
            text.starts_with("table of upper bytes, 16384 places\ntext[")
                && text.ends_with("]: library 0x46, paper 0x45")
        },
    },
    Fault {
        name: "the table is written where there is no room for it",
        put: |sides| sides.paper.upper_bytes = table_in_short_text,
        part: "table of upper bytes",
        is_reduced: |text| text.contains(" places\ntext[0]: library 0xBB, paper 0x62"),
    },
    Fault {
        name: "one word is not encoded",
        put: |sides| sides.paper.encode = encode_refuses_81_steps,
        part: "encode",
        is_reduced: |text| {
            text == "encode kind 27 data 0051\nanswer: library 0x1051, paper 0x18000000"
        },
    },
    Fault {
        name: "a word sets one flag more",
        put: |sides| sides.paper.word = window_word_sets_ir_flag,
        part: "words from states",
        is_reduced: |text| text == "word AA00 from power-on\nstate[23]: library 0x0, paper 0x1",
    },
    Fault {
        name: "a register may be one too large",
        put: |sides| sides.paper.in_range = detector_2_is_in_range,
        part: "every number of a state",
        is_reduced: |text| {
            text == "InRange from power-on, detector (0) = 2\nanswer: library 0x15, paper 0x0"
        },
    },
    Fault {
        name: "mirror motion still takes 30 ticks",
        put: |sides| sides.paper.word = mirror_moves_for_30_ticks,
        part: "words from states",
        is_reduced: |text| text == "word 5000 from power-on\nstate[29]: library 0x42, paper 0x1E",
    },
    Fault {
        name: "a state's mirror motion is still at most 30",
        put: |sides| sides.paper.in_range = motion_31_is_out_of_range,
        part: "every number of a state",
        is_reduced: |text| {
            text
                == "InRange from power-on, mirror motion (29) = 31\nanswer: library 0x0, paper 0x15"
        },
    },
    Fault {
        name: "a state may be one place longer",
        put: |sides| sides.paper.power_on = power_on_takes_36_places,
        part: "state lengths",
        is_reduced: |text| text.starts_with("PowerOn from 36 numbers"),
    },
    Fault {
        name: "a tick clears the flags too early",
        put: |sides| sides.paper.tick = tick_clears_flags_early,
        part: "runs of words and ticks",
        is_reduced: |text| {
            text.starts_with("Tick from power-on") && text.contains("= 2\n") && changes(text) == 3
        },
    },
    Fault {
        name: "the task that ended is told wrong",
        put: |sides| sides.typed.tick = tick_tells_other_task,
        part: "unpacked answers",
        is_reduced: |text| text.starts_with("unpacked, from "),
    },
];

const STATE_REFUSED: u32 = 21;
const OUT_OF_RANGE: u32 = 24;

fn decode_refuses_1805(word: u16) -> u32 {
    match word {
        0x1805 => OUT_OF_RANGE << 24 | u32::from(kind::CCD_DELAY) << 16,
        _ => Paper::decode(word),
    }
}

/// CCD DELAY's bytes are 18 to 1B.
fn byte_1c_is_a_delay(word: u16) -> u32 {
    match word >> 8 {
        0x1C => u32::from(kind::CCD_DELAY) << 16 | u32::from(word & 0x3FF),
        _ => Paper::decode_by_byte(word),
    }
}

fn byte_04_is_nop(word: u16) -> u32 {
    match word {
        0x0400 => u32::from(kind::NOP) << 16,
        _ => Paper::decode_by_byte(word),
    }
}

fn table_ends_delay_early(text: &mut [u8]) -> u64 {
    let answer = Paper::upper_bytes(text);
    let range = b"F300-F3FF";
    if let Some(at) = text.windows(range.len()).position(|part| part == range) {
        text[at + range.len() - 1] = b'E';
    }
    answer
}

fn table_in_short_text(text: &mut [u8]) -> u64 {
    let answer = Paper::upper_bytes(text);
    if let (10, Some(first)) = (answer as u8, text.first_mut()) {
        *first = b'b';
    }
    answer
}

fn encode_refuses_81_steps(kind: u8, data: u16) -> u32 {
    match (kind, data) {
        (kind::COVER, 81) => OUT_OF_RANGE << 24,
        _ => Paper::encode(kind, data),
    }
}

fn window_word_sets_ir_flag(state: &mut [u16], word: u16) -> u32 {
    const WIN_Y1: u16 = 0xA800;
    let answer = Paper::word(state, word);
    if answer == OUT_OF_RANGE && word & 0xFC00 == WIN_Y1 {
        state[place::IR_WORD_FLAG] = 1;
    }
    answer
}

fn detector_2_is_in_range(state: &[u16]) -> u32 {
    let mut state = state.to_vec();
    if let Some(detector @ 2) = state.get_mut(place::DETECTOR) {
        *detector = 1;
    }
    Paper::in_range(&state)
}

fn mirror_moves_for_30_ticks(state: &mut [u16], word: u16) -> u32 {
    let answer = Paper::word(state, word);
    if let Some(motion @ &mut MIRROR_TICKS) = state.get_mut(place::MIRROR_MOTION) {
        *motion = 30;
    }
    answer
}

fn motion_31_is_out_of_range(state: &[u16]) -> u32 {
    match state.get(place::MIRROR_MOTION) {
        Some(31..) => STATE_REFUSED,
        _ => Paper::in_range(state),
    }
}

fn power_on_takes_36_places(state: &mut [u16]) -> u32 {
    match state.len() {
        36 => Paper::power_on(&mut state[..STATE_LENGTH]),
        _ => Paper::power_on(state),
    }
}

fn tick_clears_flags_early(state: &mut [u16]) -> u32 {
    let answer = Paper::tick(state);
    if answer == 0 && state[place::BUSY] == 1 {
        state[place::IR_TIME_FLAG..=place::VIS_WORD_FLAG].fill(0);
    }
    answer
}

fn tick_tells_other_task(state: &mut State) -> Ticked {
    match paper::tick(state) {
        Ticked::BlocksDue { flags, .. } => Ticked::BlocksDue {
            task: Task::Acquisition,
            flags,
        },
        ticked => ticked,
    }
}
