//! Faults in the lines that tell why a word did nothing, and in what is unpacked
//! of the answers.

use crate::fault::Fault;
use compare::sides::{Library, Paper, Side};
use paper::{State, Why};

const LINES: &str = "explanations";
const UNPACKED: &str = "why, unpacked answers";

const OF_COVER: u32 = 1 << 31;

pub const FAULTS: &[Fault] = &[
    Fault {
        name: "one tick is told as ticks",
        put: |sides| sides.paper.explanation = one_ticks,
        part: LINES,
        is_reduced: |text| is_of(text, 0x116) && text.contains(": 1 ticks left, 0.01 s; "),
    },
    Fault {
        name: "seconds are padded",
        put: |sides| sides.library.explanation = padded_seconds,
        part: LINES,
        is_reduced: |text| is_of(text, 0x16) && text.contains(" left,   0.00 s; "),
    },
    Fault {
        name: "hundredths of a second below ten have one digit",
        put: |sides| sides.paper.explanation = one_digit,
        part: LINES,
        is_reduced: |text| is_of(text, 0x16) && text.contains(" left, 0.0 s; "),
    },
    Fault {
        name: "ticks are told by 12 bits",
        put: |sides| sides.paper.explanation = ticks_of_12_bits,
        part: LINES,
        is_reduced: |text| is_of(text, 0x10_0016) && text.contains(": 0 ticks left, "),
    },
    Fault {
        name: "the moving cover is told as a busy head",
        put: |sides| sides.paper.explanation = cover_as_busy,
        part: LINES,
        is_reduced: |text| is_of(text, 0x8000_0016),
    },
    Fault {
        name: "both sides have no line for the moving cover",
        put: |sides| {
            sides.library.explanation = no_line_for_cover;
            sides.paper.explanation = no_line_for_cover;
        },
        part: LINES,
        is_reduced: |text| text == "answer 0x80000116 has no line",
    },
    Fault {
        name: "a word is told without its zeros",
        put: |sides| sides.library.explanation = unpadded_word,
        part: LINES,
        is_reduced: |text| explained(text) & 0xFF == 24 && text.contains(" of word 0 "),
    },
    Fault {
        name: "a word is told in lower case",
        put: |sides| sides.paper.explanation = lower_case_word,
        part: LINES,
        is_reduced: |text| (explained(text) >> 8).count_ones() == 2,
    },
    Fault {
        name: "the kind of an unknown identifier is told as NOP",
        put: |sides| sides.paper.explanation = unknown_as_nop,
        part: LINES,
        is_reduced: |text| is_of(text, 0x4_0018) && text.contains(" range of NOP\\n"),
    },
    Fault {
        name: "the number after the last kind is told as COVER",
        put: |sides| sides.library.explanation = kind_28_as_cover,
        part: LINES,
        is_reduced: |text| is_of(text, 0x1C19) && text.contains(": COVER was due\\n"),
    },
    Fault {
        name: "the kind that was due is told by 5 bits",
        put: |sides| sides.paper.explanation = kind_of_5_bits,
        part: LINES,
        is_reduced: |text| is_of(text, 0x2019) && text.contains(": NOP was due\\n"),
    },
    Fault {
        name: "26 has a line",
        put: |sides| sides.paper.explanation = line_for_26,
        part: LINES,
        is_reduced: |text| is_of(text, 0x1A),
    },
    Fault {
        name: "a word that is taken may have any other bits",
        put: |sides| sides.library.explanation = any_bits_when_taken,
        part: LINES,
        is_reduced: |text| is_of(text, 0x100) && text.contains("\nlibrary 6 \"taken\\n\"\n"),
    },
    Fault {
        name: "21 may have other bits",
        put: |sides| sides.paper.explanation = any_bits_with_21,
        part: LINES,
        is_reduced: |text| is_of(text, 0x115),
    },
    Fault {
        name: "ticks may have more than 16 bits",
        put: |sides| sides.library.explanation = ticks_of_more_bits,
        part: LINES,
        is_reduced: |text| explained(text) & 0xFF == 22 && has_one_bit(text, 24..31),
    },
    Fault {
        name: "a word may have more than 16 bits",
        put: |sides| sides.paper.explanation = word_of_more_bits,
        part: LINES,
        is_reduced: |text| explained(text) & 0xFF == 23 && has_one_bit(text, 24..32),
    },
    Fault {
        name: "bit 31 may be set for 24",
        put: |sides| sides.library.explanation = top_bit_with_24,
        part: LINES,
        is_reduced: |text| is_of(text, 0x8000_0018),
    },
    Fault {
        name: "a kind may have more than 8 bits",
        put: |sides| sides.paper.explanation = kind_of_more_bits,
        part: LINES,
        is_reduced: |text| explained(text) & 0xFF == 25 && has_one_bit(text, 16..32),
    },
    Fault {
        name: "room without the newline is taken for enough",
        put: |sides| sides.library.explanation = leaves_newline_out,
        part: LINES,
        is_reduced: |text| {
            text == "explanation of 0x0, text: the places needed -1\n\
                     library 5 \"taken\"\npaper   0 \"\""
        },
    },
    Fault {
        name: "just enough room is taken for too little",
        put: |sides| sides.paper.explanation = refuses_just_enough,
        part: LINES,
        is_reduced: |text| {
            text == "explanation of 0x0, text: the places needed +0\n\
                     library 6 \"taken\\n\"\npaper   0 \"\""
        },
    },
    Fault {
        name: "a line is begun where there is no room for it",
        put: |sides| sides.paper.explanation = begins_without_room,
        part: LINES,
        is_reduced: |text| {
            text == "explanation of 0x0, text: the places needed -1\n\
                     text[0]: library 0xBB, paper 0x74"
        },
    },
    Fault {
        name: "a line is begun for a number that has none",
        put: |sides| sides.library.explanation = begins_without_line,
        part: LINES,
        is_reduced: |text| {
            text == "explanation of 0x100, text: every place\n\
                     text[0]: library 0x74, paper 0xBB"
        },
    },
    Fault {
        name: "a byte past the line is written",
        put: |sides| sides.library.explanation = writes_past_line,
        part: LINES,
        is_reduced: |text| {
            text == "explanation of 0x0, text: every place\n\
                     text[6]: library 0x0, paper 0xBB"
        },
    },
    Fault {
        name: "both sides end a line in a space",
        put: |sides| {
            sides.library.explanation = ends_in_space;
            sides.paper.explanation = ends_in_space;
        },
        part: LINES,
        is_reduced: |text| text == "explanation of 0x0, text: every place\nform: |taken |",
    },
    Fault {
        name: "both sides have a line of 65 columns",
        put: |sides| {
            sides.library.explanation = longer_line;
            sides.paper.explanation = longer_line;
        },
        part: LINES,
        // The first ticks of five digits.
        is_reduced: |text| is_of(text, 10_000 << 8 | 22) && text.contains("\nform: |"),
    },
    Fault {
        name: "both sides write two lines",
        put: |sides| {
            sides.library.explanation = two_lines;
            sides.paper.explanation = two_lines;
        },
        part: LINES,
        is_reduced: |text| is_of(text, 0x16) && text.ends_with("\nnot one line"),
    },
    Fault {
        name: "a moving cover is unpacked as a busy head",
        put: |sides| sides.typed.why = unpacks_cover_as_busy,
        part: UNPACKED,
        is_reduced: |text| {
            text.starts_with("unpacked, why word 1")
                && text.contains("\nlibrary (CoverMoving { ")
                && text.contains("\npaper (Busy { ")
        },
    },
    Fault {
        name: "the kind of a word out of range is unpacked wrong",
        put: |sides| sides.typed.why = unpacks_kind_as_cover,
        part: UNPACKED,
        is_reduced: |text| {
            text.starts_with("unpacked, why word ") && text.contains("\nlibrary (DataOutOfRange ")
        },
    },
    Fault {
        name: "the number of a mirror word out of turn is told wrong",
        put: |sides| sides.typed.why_answer = out_of_turn_is_24,
        part: UNPACKED,
        is_reduced: |text| {
            text.starts_with("unpacked, why word ") && text.contains("\nlibrary (OutOfTurn { ")
        },
    },
    Fault {
        name: "a diagnosis has one tick as ticks",
        put: |sides| sides.typed.explanation = unpacked_one_ticks,
        part: UNPACKED,
        is_reduced: |text| text.starts_with("unpacked, Busy { ticks: 1 }\n"),
    },
];

/// The number whose line a case is about.
fn explained(text: &str) -> u32 {
    let number = text.strip_prefix("explanation of 0x").expect("a number");
    let (number, _) = number.split_once(',').expect("a number");
    u32::from_str_radix(number, 16).expect("a number")
}

/// Whether the case is about this number, with room for every line.
fn is_of(text: &str, why: u32) -> bool {
    text.starts_with(&format!("explanation of {why:#X}, text: every place\n"))
}

/// Whether of the number's bits from 8 on just one is set, and one of these.
fn has_one_bit(text: &str, bits: std::ops::Range<u32>) -> bool {
    let about = explained(text) & !0xFF;
    about.count_ones() == 1 && bits.contains(&about.trailing_zeros())
}

type Explanation = fn(u32, &mut [u8]) -> u32;

/// A side's line, changed.
fn changed(side: Explanation, why: u32, text: &mut [u8], change: fn(u32, &str) -> String) -> u32 {
    let mut line = [0; shabgozim::EXPLANATION_LENGTH];
    let length = side(why, &mut line) as usize;
    let line = change(why, std::str::from_utf8(&line[..length]).expect("a line"));
    match text.get_mut(..line.len()) {
        None => 0,
        Some(places) => {
            places.copy_from_slice(line.as_bytes());
            line.len() as u32
        }
    }
}

/// The ticks or the word of an answer.
fn detail(why: u32) -> u32 {
    why >> 8 & 0xFFFF
}

/// The line with its seconds in another form.
fn with_seconds(why: u32, line: &str, form: fn(u32) -> String) -> String {
    match (why as u8, line.split_once(" left, ")) {
        (22, Some((before, after))) => {
            let (_, end) = after.split_once(" s; ").expect("seconds");
            format!("{before} left, {} s; {end}", form(detail(why)))
        }
        _ => line.into(),
    }
}

fn one_ticks(why: u32, text: &mut [u8]) -> u32 {
    changed(Paper::explanation, why, text, |_, line| {
        line.replace(" 1 tick left", " 1 ticks left")
    })
}

fn padded_seconds(why: u32, text: &mut [u8]) -> u32 {
    changed(Library::explanation, why, text, |why, line| {
        with_seconds(why, line, |ticks| {
            format!("{:>3}.{:02}", ticks / 100, ticks % 100)
        })
    })
}

fn one_digit(why: u32, text: &mut [u8]) -> u32 {
    changed(Paper::explanation, why, text, |why, line| {
        with_seconds(why, line, |ticks| {
            format!("{}.{}", ticks / 100, ticks % 100)
        })
    })
}

fn ticks_of_12_bits(why: u32, text: &mut [u8]) -> u32 {
    match why as u8 {
        22 => Paper::explanation(why & 0xFF0F_FFFF, text),
        _ => Paper::explanation(why, text),
    }
}

fn cover_as_busy(why: u32, text: &mut [u8]) -> u32 {
    match why as u8 {
        22 => Paper::explanation(why & !OF_COVER, text),
        _ => Paper::explanation(why, text),
    }
}

fn no_line_for_cover(why: u32, text: &mut [u8]) -> u32 {
    match why & OF_COVER {
        0 => Paper::explanation(why, text),
        _ => 0,
    }
}

/// The line with its word in another form.
fn with_word(why: u32, line: &str, form: fn(u32) -> String) -> String {
    match why as u8 {
        23 | 24 => {
            let word = format!("word {:04X}", detail(why));
            line.replace(&word, &format!("word {}", form(detail(why))))
        }
        _ => line.into(),
    }
}

fn unpadded_word(why: u32, text: &mut [u8]) -> u32 {
    changed(Library::explanation, why, text, |why, line| {
        with_word(why, line, |word| format!("{word:X}"))
    })
}

fn lower_case_word(why: u32, text: &mut [u8]) -> u32 {
    changed(Paper::explanation, why, text, |why, line| {
        with_word(why, line, |word| format!("{word:04x}"))
    })
}

fn unknown_as_nop(why: u32, text: &mut [u8]) -> u32 {
    changed(Paper::explanation, why, text, |_, line| {
        line.replace("range of unknown", "range of NOP")
    })
}

fn kind_28_as_cover(why: u32, text: &mut [u8]) -> u32 {
    match why {
        0x1C19 => Library::explanation(0x1B19, text),
        _ => Library::explanation(why, text),
    }
}

fn kind_of_5_bits(why: u32, text: &mut [u8]) -> u32 {
    match why as u8 {
        25 => Paper::explanation(why & !0xE000, text),
        _ => Paper::explanation(why, text),
    }
}

fn line_for_26(why: u32, text: &mut [u8]) -> u32 {
    match why as u8 {
        26 => Paper::explanation(why - 1, text),
        _ => Paper::explanation(why, text),
    }
}

/// The line of a number without some of its bits, where the number is this.
fn without_bits(side: Explanation, why: u32, text: &mut [u8], (number, bits): (u8, u32)) -> u32 {
    match why as u8 == number {
        true => side(why & !bits, text),
        false => side(why, text),
    }
}

fn any_bits_when_taken(why: u32, text: &mut [u8]) -> u32 {
    without_bits(Library::explanation, why, text, (0, 0xFFFF_FF00))
}

fn any_bits_with_21(why: u32, text: &mut [u8]) -> u32 {
    without_bits(Paper::explanation, why, text, (21, 0xFFFF_FF00))
}

fn ticks_of_more_bits(why: u32, text: &mut [u8]) -> u32 {
    without_bits(Library::explanation, why, text, (22, 0x7F00_0000))
}

fn word_of_more_bits(why: u32, text: &mut [u8]) -> u32 {
    without_bits(Paper::explanation, why, text, (23, 0xFF00_0000))
}

fn top_bit_with_24(why: u32, text: &mut [u8]) -> u32 {
    without_bits(Library::explanation, why, text, (24, OF_COVER))
}

fn kind_of_more_bits(why: u32, text: &mut [u8]) -> u32 {
    without_bits(Paper::explanation, why, text, (25, 0xFFFF_0000))
}

fn leaves_newline_out(why: u32, text: &mut [u8]) -> u32 {
    let mut longer = [&text[..], &[0]].concat();
    let answer = Library::explanation(why, &mut longer);
    text.copy_from_slice(&longer[..text.len()]);
    answer.min(text.len() as u32)
}

fn refuses_just_enough(why: u32, text: &mut [u8]) -> u32 {
    match text {
        [places @ .., _] => Paper::explanation(why, places),
        [] => 0,
    }
}

fn begins_without_room(why: u32, text: &mut [u8]) -> u32 {
    let answer = Paper::explanation(why, text);
    if let (0, Some(_), Some(first)) = (answer, paper::explanation(why), text.first_mut()) {
        *first = b't';
    }
    answer
}

fn begins_without_line(why: u32, text: &mut [u8]) -> u32 {
    let answer = Library::explanation(why, text);
    if let (0, None, Some(first)) = (answer, paper::explanation(why), text.first_mut()) {
        *first = b't';
    }
    answer
}

fn writes_past_line(why: u32, text: &mut [u8]) -> u32 {
    let answer = Library::explanation(why, text);
    if let (1.., Some(next)) = (answer, text.get_mut(answer as usize)) {
        *next = 0;
    }
    answer
}

fn ends_in_space(why: u32, text: &mut [u8]) -> u32 {
    changed(Paper::explanation, why, text, |_, line| {
        line.replace("taken\n", "taken \n")
    })
}

fn longer_line(why: u32, text: &mut [u8]) -> u32 {
    changed(Paper::explanation, why, text, |_, line| {
        line.replace("only STOP is", "only  STOP is")
    })
}

fn two_lines(why: u32, text: &mut [u8]) -> u32 {
    changed(Paper::explanation, why, text, |_, line| {
        line.replace(" s; ", " s;\n")
    })
}

fn unpacks_cover_as_busy(state: &State, word: u16) -> Why {
    match paper::why(state, word) {
        Why::CoverMoving { ticks } => Why::Busy { ticks },
        why => why,
    }
}

fn unpacks_kind_as_cover(state: &State, word: u16) -> Why {
    match paper::why(state, word) {
        Why::DataOutOfRange { word, .. } => Why::DataOutOfRange {
            word,
            kind: paper::Kind::Cover,
        },
        why => why,
    }
}

fn out_of_turn_is_24(why: Why) -> u32 {
    match why {
        Why::OutOfTurn { .. } => paper::why_answer(why) - 1,
        _ => paper::why_answer(why),
    }
}

fn unpacked_one_ticks(why: u32) -> Option<String> {
    let line = paper::explanation(why)?;
    Some(line.replace(" 1 tick left", " 1 ticks left"))
}
