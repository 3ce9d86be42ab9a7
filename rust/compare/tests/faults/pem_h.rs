//! Faults in the requests of the high-resolution head, and in its refusals in
//! words.

use crate::fault::Fault;
use compare::sides::{Paper, Side};
use paper::pem_h::{self, Meaning, Read, Refusal};

const DECODE: &str = "PEM-H decode";
const ENCODE: &str = "PEM-H encode";
const REFUSALS: &str = "PEM-H refusals";
const UNPACKED: &str = "PEM-H unpacked answers";

pub const FAULTS: &[Fault] = &[
    Fault {
        name: "HSET_PEM_Mode takes 4",
        put: |sides| sides.paper.h_encode = mode_takes_4,
        part: ENCODE,
        is_reduced: |text| {
            text == "PEM-H encode request 11 value 0004\nanswer: library 0x2C000000, paper 0x6804"
        },
    },
    Fault {
        name: "HSET_PEM_Mode is read with 4",
        put: |sides| sides.paper.h_decode = mode_4_is_read,
        part: DECODE,
        is_reduced: |text| text == "PEM-H decode 6804\nanswer: library 0x2C000000, paper 0xB0004",
    },
    Fault {
        name: "the lamps' words are read as the first lamp's",
        put: |sides| sides.paper.h_decode = lamps_are_the_first,
        part: DECODE,
        is_reduced: |text| text == "PEM-H decode 2400\nanswer: library 0x810000, paper 0x10000",
    },
    Fault {
        name: "the lamps' last word is read as the third lamp's",
        put: |sides| sides.paper.h_decode = last_is_of_the_third,
        part: DECODE,
        is_reduced: |text| text == "PEM-H decode 24FF\nanswer: library 0x8100FF, paper 0x300FF",
    },
    Fault {
        name: "a shared meaning is told by its last request",
        put: |sides| sides.paper.h_decode = resets_by_the_last,
        part: DECODE,
        is_reduced: |text| text == "PEM-H decode 3800\nanswer: library 0x870000, paper 0x880000",
    },
    Fault {
        name: "2000 is read as HSET_Bias alone",
        put: |sides| sides.paper.h_decode = bias_alone,
        part: DECODE,
        is_reduced: |text| text == "PEM-H decode 2000\nanswer: library 0x800000, paper 0x0",
    },
    Fault {
        name: "HRESYNC's missing bit is put before the others",
        put: |sides| sides.paper.h_encode = resync_at_000100,
        part: ENCODE,
        is_reduced: |text| {
            text == "PEM-H encode request 16 value 0000\nanswer: library 0x2000, paper 0x1000"
        },
    },
    Fault {
        name: "HRESYNC is read with its missing bit before the others",
        put: |sides| sides.paper.h_decode = resync_is_read_at_000100,
        part: DECODE,
        is_reduced: |text| text == "PEM-H decode 1000\nanswer: library 0x2B000000, paper 0x100000",
    },
    Fault {
        name: "an unknown code is refused with 44",
        put: |sides| sides.paper.h_decode = unknown_code_as_44,
        part: DECODE,
        is_reduced: |text| {
            text == "PEM-H decode 1000\nanswer: library 0x2B000000, paper 0x2C000000"
        },
    },
    Fault {
        name: "a value is judged before its request",
        put: |sides| sides.paper.h_encode = value_first,
        part: ENCODE,
        is_reduced: |text| {
            text == "PEM-H encode request 32 value 0400\n\
                     answer: library 0x2B000000, paper 0x2C000000"
        },
    },
    Fault {
        name: "a value is taken modulo 1,024",
        put: |sides| sides.paper.h_encode = value_of_10_bits,
        part: ENCODE,
        is_reduced: |text| {
            text == "PEM-H encode request 0 value 0400\nanswer: library 0x2C000000, paper 0x2000"
        },
    },
    Fault {
        name: "a request's number is taken modulo 32",
        put: |sides| sides.paper.h_encode = number_of_5_bits,
        part: ENCODE,
        is_reduced: |text| {
            text == "PEM-H encode request 32 value 0000\nanswer: library 0x2B000000, paper 0x2000"
        },
    },
    Fault {
        name: "two lamps may be on at once",
        put: |sides| sides.paper.h_decode = two_lamps_on,
        part: DECODE,
        is_reduced: |text| text == "PEM-H decode 7403\nanswer: library 0x2C000000, paper 0x180003",
    },
    Fault {
        name: "the cover takes no more than 81 steps",
        put: |sides| sides.paper.h_encode = cover_takes_81_steps,
        part: ENCODE,
        is_reduced: |text| {
            text == "PEM-H encode request 30 value 0290\nanswer: library 0x4A90, paper 0x2C000000"
        },
    },
    Fault {
        name: "HSET_Int_Num2 takes ten bits",
        put: |sides| sides.paper.h_encode = number_2_takes_10_bits,
        part: ENCODE,
        is_reduced: |text| {
            text == "PEM-H encode request 6 value 0100\nanswer: library 0x2C000000, paper 0x5500"
        },
    },
    Fault {
        name: "a refused word's value is told",
        put: |sides| sides.paper.h_decode = value_below_refusal,
        part: DECODE,
        is_reduced: |text| {
            text == "PEM-H decode 0001\nanswer: library 0x2C000000, paper 0x2C000001"
        },
    },
    Fault {
        name: "a word that is read is not written",
        put: |sides| sides.library.h_encode = mode_refuses_3,
        part: DECODE,
        is_reduced: |text| text == "PEM-H decode 6803: written back as 0x2C000000",
    },
    Fault {
        name: "both sides refuse one word",
        put: |sides| {
            sides.library.h_decode = mode_3_is_refused;
            sides.paper.h_decode = mode_3_is_refused;
        },
        part: DECODE,
        is_reduced: |text| text == "4375 words of requests, not 4376",
    },
    Fault {
        name: "43 is told as 44",
        put: |sides| sides.paper.h_refusal = tells_43_as_44,
        part: REFUSALS,
        is_reduced: |text| {
            text == "PEM-H refusal 43, text: every place\nanswer: library 28, paper 48"
        },
    },
    Fault {
        name: "45 has a line too",
        put: |sides| sides.paper.h_refusal = tells_45,
        part: REFUSALS,
        is_reduced: |text| {
            text == "PEM-H refusal 45, text: every place\nanswer: library 0, paper 48"
        },
    },
    Fault {
        name: "a line is begun where there is no room for it",
        put: |sides| sides.paper.h_refusal = begins_without_room,
        part: REFUSALS,
        is_reduced: |text| {
            text == "PEM-H refusal 41, text: the places needed -1\n\
                     text[0]: library 0xBB, paper 0x72"
        },
    },
    Fault {
        name: "just enough room for a line is refused",
        put: |sides| sides.paper.h_refusal = refuses_just_enough,
        part: REFUSALS,
        is_reduced: |text| {
            text == "PEM-H refusal 41, text: the places needed +0\nanswer: library 41, paper 0"
        },
    },
    Fault {
        name: "room without the newline is taken for enough",
        put: |sides| sides.paper.h_refusal = leaves_newline_out,
        part: REFUSALS,
        is_reduced: |text| {
            text == "PEM-H refusal 41, text: the places needed -1\nanswer: library 0, paper 41"
        },
    },
    Fault {
        name: "a byte past the line is written",
        put: |sides| sides.paper.h_refusal = writes_past_line,
        part: REFUSALS,
        is_reduced: |text| {
            text == "PEM-H refusal 41, text: every place\ntext[41]: library 0xBB, paper 0x0"
        },
    },
    Fault {
        name: "a request of a shared word is not told",
        put: |sides| sides.typed.h_decode = leaves_out_second_lamp,
        part: UNPACKED,
        is_reduced: |text| {
            text == "unpacked, PEM-H word 2400\nlibrary Ok(([1, 2, 3], 0))\npaper Ok(([1, 3], 0))"
        },
    },
];

const UNKNOWN: u32 = 43 << 24;
const OUT_OF_RANGE: u32 = 44 << 24;

fn mode_takes_4(request: u8, value: u16) -> u32 {
    match (request, value) {
        (11, 4) => 0x6804,
        _ => Paper::h_encode(request, value),
    }
}

fn mode_4_is_read(word: u16) -> u32 {
    match word {
        0x6804 => 11 << 16 | 4,
        _ => Paper::h_decode(word),
    }
}

fn lamps_are_the_first(word: u16) -> u32 {
    match word >> 8 {
        0x24 => 1 << 16 | u32::from(word & 0xFF),
        _ => Paper::h_decode(word),
    }
}

fn last_is_of_the_third(word: u16) -> u32 {
    match word {
        0x24FF => 3 << 16 | 0xFF,
        _ => Paper::h_decode(word),
    }
}

fn resets_by_the_last(word: u16) -> u32 {
    match word {
        0x3800 => 0x88 << 16,
        _ => Paper::h_decode(word),
    }
}

fn bias_alone(word: u16) -> u32 {
    match word {
        0x2000 => 0,
        _ => Paper::h_decode(word),
    }
}

fn resync_at_000100(request: u8, value: u16) -> u32 {
    match (request, value) {
        (16, 0) => 0b000100 << 10,
        _ => Paper::h_encode(request, value),
    }
}

fn resync_is_read_at_000100(word: u16) -> u32 {
    match word {
        0x1000 => 16 << 16,
        0x2000 => 0,
        _ => Paper::h_decode(word),
    }
}

fn unknown_code_as_44(word: u16) -> u32 {
    match Paper::h_decode(word) {
        UNKNOWN => OUT_OF_RANGE,
        answer => answer,
    }
}

fn value_first(request: u8, value: u16) -> u32 {
    match value {
        0x400.. => OUT_OF_RANGE,
        _ => Paper::h_encode(request, value),
    }
}

fn value_of_10_bits(request: u8, value: u16) -> u32 {
    Paper::h_encode(request, value & 0x3FF)
}

fn number_of_5_bits(request: u8, value: u16) -> u32 {
    Paper::h_encode(request % 32, value)
}

fn two_lamps_on(word: u16) -> u32 {
    match word {
        0x7403 => 24 << 16 | 3,
        _ => Paper::h_decode(word),
    }
}

/// The steps are bits 3 to 9.
fn cover_takes_81_steps(request: u8, value: u16) -> u32 {
    match (request, value >> 3) {
        (30, 82..) => OUT_OF_RANGE,
        _ => Paper::h_encode(request, value),
    }
}

fn number_2_takes_10_bits(request: u8, value: u16) -> u32 {
    match (request, value) {
        (6, 0..=0x3FF) => 0x5400 | u32::from(value),
        _ => Paper::h_encode(request, value),
    }
}

fn value_below_refusal(word: u16) -> u32 {
    match Paper::h_decode(word) {
        OUT_OF_RANGE => OUT_OF_RANGE | u32::from(word & 0x3FF),
        answer => answer,
    }
}

fn mode_refuses_3(request: u8, value: u16) -> u32 {
    match (request, value) {
        (11, 3) => OUT_OF_RANGE,
        _ => Paper::h_encode(request, value),
    }
}

fn mode_3_is_refused(word: u16) -> u32 {
    match word {
        0x6803 => OUT_OF_RANGE,
        _ => Paper::h_decode(word),
    }
}

fn tells_43_as_44(number: u8, text: &mut [u8]) -> u32 {
    match number {
        43 => Paper::h_refusal(44, text),
        _ => Paper::h_refusal(number, text),
    }
}

fn tells_45(number: u8, text: &mut [u8]) -> u32 {
    match number {
        45 => Paper::h_refusal(44, text),
        _ => Paper::h_refusal(number, text),
    }
}

fn begins_without_room(number: u8, text: &mut [u8]) -> u32 {
    let answer = Paper::h_refusal(number, text);
    if let (0, 41..=44, Some(first)) = (answer, number, text.first_mut()) {
        *first = b'r';
    }
    answer
}

fn refuses_just_enough(number: u8, text: &mut [u8]) -> u32 {
    match text {
        [places @ .., _] => Paper::h_refusal(number, places),
        [] => 0,
    }
}

fn leaves_newline_out(number: u8, text: &mut [u8]) -> u32 {
    let mut longer = [&text[..], &[0]].concat();
    let answer = Paper::h_refusal(number, &mut longer);
    text.copy_from_slice(&longer[..text.len()]);
    answer
}

fn writes_past_line(number: u8, text: &mut [u8]) -> u32 {
    let answer = Paper::h_refusal(number, text);
    if let (1.., Some(next)) = (answer, text.get_mut(answer as usize)) {
        *next = 0;
    }
    answer
}

fn leaves_out_second_lamp(word: u16) -> Result<Read, Refusal> {
    let mut read = pem_h::decode(word)?;
    if let Meaning::Shared { others, .. } = &mut read.meaning {
        others.retain(|&request| request != 2);
    }
    Ok(read)
}
