//! Faults in what is answered about a word.

use crate::fault::{changes, Fault};
use compare::sides::{Library, Paper, Side};
use shabgozim::{kind, place, STATE_LENGTH};

const WHY: &str = "why";
const BY_HEAD: &str = "why, by the head";

const STOP: u16 = 0xC000;
const STATE_REFUSED: u32 = 21;
const WRONG_TIME: u32 = 22;
const UNKNOWN: u32 = 23;
const OUT_OF_RANGE: u32 = 24;
const OUT_OF_TURN: u32 = 25;
const OF_COVER: u32 = 1 << 31;
/// One tick, in an answer.
const ONE_TICK: u32 = 1 << 8;

pub const FAULTS: &[Fault] = &[
    Fault {
        name: "the head is told to be busy for one tick more",
        put: |sides| sides.library.why = busy_one_more,
        part: WHY,
        is_reduced: |text| text == busy("0000", "answer: library 0x216, paper 0x116"),
    },
    Fault {
        name: "the head is told to be busy for one tick less",
        put: |sides| sides.paper.why = busy_one_less,
        part: WHY,
        is_reduced: |text| text == busy("0000", "answer: library 0x116, paper 0x16"),
    },
    Fault {
        name: "busy ticks are told by 12 bits",
        put: |sides| sides.library.why = ticks_of_12_bits,
        part: WHY,
        is_reduced: |text| {
            text == "why word 0000 from power-on, task (27) = 1, busy (28) = 4238\n\
                     answer: library 0x8E16, paper 0x108E16"
        },
    },
    Fault {
        name: "the mirror word that came is named for the one that was due",
        put: |sides| sides.paper.why = names_word_that_came,
        part: WHY,
        is_reduced: |text| {
            text == "why word 6000 from power-on\nanswer: library 0x1619, paper 0x1819"
        },
    },
    Fault {
        name: "SIN M is not named where no set is begun",
        put: |sides| sides.library.why = never_names_sin_m,
        part: WHY,
        is_reduced: |text| {
            text == "why word 6000 from power-on\nanswer: library 0x1719, paper 0x1619"
        },
    },
    Fault {
        name: "the last word of a begun set is named for the one that was due",
        put: |sides| sides.paper.why = names_last_word,
        part: WHY,
        is_reduced: |text| {
            text == "why word 6000 from power-on, set words (31) = 1\n\
                     answer: library 0x1719, paper 0x1619"
        },
    },
    Fault {
        name: "SIN M is out of turn where a set is begun",
        put: |sides| sides.paper.why = sin_m_out_of_turn,
        part: WHY,
        is_reduced: |text| {
            text == "why word 2000 from power-on, set words (31) = 1\n\
                     answer: library 0x0, paper 0x1719"
        },
    },
    Fault {
        name: "the busy rule is named for a moving cover",
        put: |sides| sides.paper.why = cover_as_busy,
        part: WHY,
        is_reduced: |text| text == cover_moves("1000", "answer: library 0x80000116, paper 0x116"),
    },
    Fault {
        name: "the moving cover is named for a busy head",
        put: |sides| sides.library.why = busy_as_cover,
        part: WHY,
        is_reduced: |text| text == busy("0000", "answer: library 0x80000116, paper 0x116"),
    },
    Fault {
        name: "the cover is looked at before being busy",
        put: |sides| sides.paper.why = cover_before_busy,
        part: WHY,
        is_reduced: |text| {
            text == "why word 1000 from power-on, task (27) = 1, busy (28) = 1, \
                     cover motion (30) = 1\nanswer: library 0x116, paper 0x80000116"
        },
    },
    Fault {
        name: "the ticks of the mirror are told for those of the cover",
        put: |sides| sides.paper.why = ticks_of_mirror,
        part: WHY,
        is_reduced: |text| {
            text == cover_moves("1000", "answer: library 0x80000116, paper 0x80000016")
        },
    },
    Fault {
        name: "a moving mirror stops SIN M",
        put: |sides| sides.library.why = mirror_must_rest,
        part: WHY,
        is_reduced: |text| {
            text == "why word 2000 from power-on, mirror motion (29) = 1\n\
                     answer: library 0x116, paper 0x0"
        },
    },
    Fault {
        name: "21 comes after 22",
        put: |sides| sides.paper.why = busy_before_state,
        part: WHY,
        is_reduced: |text| {
            text == "why word 0000 from power-on, busy (28) = 1\n\
                     answer: library 0x15, paper 0x116"
        },
    },
    Fault {
        name: "21 comes after 23",
        put: |sides| sides.library.why = identifier_before_state,
        part: WHY,
        is_reduced: |text| {
            text == "why word 0400 from power-on, busy (28) = 1\n\
                     answer: library 0x40017, paper 0x15"
        },
    },
    Fault {
        name: "23 and 24 are exchanged",
        put: |sides| sides.paper.why = exchanges_23_and_24,
        part: WHY,
        is_reduced: |text| {
            text == "why word 0001 from power-on\nanswer: library 0x118, paper 0x117"
        },
    },
    Fault {
        name: "the data are told for the word",
        put: |sides| sides.library.why = data_for_word,
        part: WHY,
        is_reduced: |text| {
            text == "why word 0400 from power-on\nanswer: library 0x17, paper 0x40017"
        },
    },
    Fault {
        name: "a busy head does not take C000",
        put: |sides| sides.paper.why = stop_at_wrong_time,
        part: WHY,
        is_reduced: |text| text == busy("C000", "answer: library 0x0, paper 0x116"),
    },
    Fault {
        name: "C001 to a busy head is named 24",
        put: |sides| sides.library.why = c001_out_of_range,
        part: WHY,
        is_reduced: |text| text == busy("C001", "answer: library 0xC00118, paper 0x116"),
    },
    Fault {
        name: "COVER out of range while the cover moves is named 22",
        put: |sides| sides.paper.why = cover_time_before_range,
        part: WHY,
        is_reduced: |text| {
            text == cover_moves("1052", "answer: library 0x105218, paper 0x80000116")
        },
    },
    Fault {
        name: "a mirror word out of range is named 25",
        put: |sides| sides.library.why = mirror_turn_before_range,
        part: WHY,
        is_reduced: |text| {
            text == "why word 2020 from power-on\nanswer: library 0x1619, paper 0x202018"
        },
    },
    Fault {
        name: "the act is told of a word that is taken",
        put: |sides| sides.library.why = tells_act,
        part: WHY,
        is_reduced: |text| text == "why word 1000 from power-on\nanswer: library 0x1000, paper 0x0",
    },
    Fault {
        name: "a state may be one place longer",
        put: |sides| sides.paper.why = takes_36_places,
        part: WHY,
        is_reduced: |text| {
            text.contains(" from 36 numbers ") && text.contains("\nanswer: library 0x15, paper 0x")
        },
    },
    Fault {
        name: "both sides tell one busy tick more",
        put: |sides| {
            sides.library.why = busy_one_more;
            sides.paper.why = busy_one_more;
        },
        part: BY_HEAD,
        is_reduced: |text| text == busy("0000", "answer: library 0x216, its head 0x116"),
    },
    Fault {
        name: "both sides tell one busy tick less",
        put: |sides| {
            sides.library.why = busy_one_less;
            sides.paper.why = busy_one_less;
        },
        part: BY_HEAD,
        is_reduced: |text| text == busy("0000", "answer: library 0x16, its head 0x116"),
    },
    Fault {
        name: "both sides name the busy rule for a moving cover",
        put: |sides| {
            sides.library.why = cover_as_busy;
            sides.paper.why = cover_as_busy;
        },
        part: BY_HEAD,
        is_reduced: |text| {
            text == cover_moves("1000", "answer: library 0x116, its head 0x80000116")
        },
    },
    Fault {
        name: "both sides tell the ticks of the mirror for those of the cover",
        put: |sides| {
            sides.library.why = ticks_of_mirror;
            sides.paper.why = ticks_of_mirror;
        },
        part: BY_HEAD,
        is_reduced: |text| {
            text == cover_moves("1000", "answer: library 0x80000016, its head 0x80000116")
        },
    },
    Fault {
        name: "both sides name the mirror word that came",
        put: |sides| {
            sides.library.why = names_word_that_came;
            sides.paper.why = names_word_that_came;
        },
        part: BY_HEAD,
        is_reduced: |text| text.contains(" from power-on\n") && text.ends_with(", its head 0x1619"),
    },
    Fault {
        name: "both sides name the last word of a begun set",
        put: |sides| {
            sides.library.why = names_last_word;
            sides.paper.why = names_last_word;
        },
        part: BY_HEAD,
        is_reduced: |text| text.contains(", set words (31) = ") && changes(text) == 1,
    },
    Fault {
        name: "both sides exchange 23 and 24",
        put: |sides| {
            sides.library.why = exchanges_23_and_24;
            sides.paper.why = exchanges_23_and_24;
        },
        part: BY_HEAD,
        is_reduced: |text| {
            text == "why word 0001 from power-on\nanswer: library 0x117, its head 0x118"
        },
    },
    Fault {
        name: "both sides name 24 for C001 to a busy head",
        put: |sides| {
            sides.library.why = c001_out_of_range;
            sides.paper.why = c001_out_of_range;
        },
        part: BY_HEAD,
        is_reduced: |text| text == busy("C001", "answer: library 0xC00118, its head 0x116"),
    },
    Fault {
        name: "the head's own task ends twice as fast",
        put: |sides| sides.library.tick = task_ends_twice_as_fast,
        part: BY_HEAD,
        is_reduced: |text| {
            text == "why word 0000 from power-on, task (27) = 1, busy (28) = 2\n\
                     answer: library 0x216, its head 0x116"
        },
    },
    Fault {
        name: "the head's own mirror set begins with any word",
        put: |sides| sides.library.word = takes_every_mirror_word,
        part: BY_HEAD,
        is_reduced: |text| text.contains(" from power-on\n") && text.ends_with(", its head 0x0"),
    },
    Fault {
        name: "the head itself ignores SIN M",
        put: |sides| sides.library.word = ignores_sin_m,
        part: BY_HEAD,
        is_reduced: |text| {
            text.contains(" from power-on\n")
                && text.ends_with("\nits head takes other mirror words than the one that is due")
        },
    },
];

/// A case of one word to a head that is busy for a tick, and how it ends.
fn busy(word: &str, end: &str) -> String {
    format!("why word {word} from power-on, task (27) = 1, busy (28) = 1\n{end}")
}

/// A case of one word while the cover moves for a tick, and how it ends.
fn cover_moves(word: &str, end: &str) -> String {
    format!("why word {word} from power-on, cover motion (30) = 1\n{end}")
}

fn number(answer: u32) -> u32 {
    answer & 0xFF
}

fn is_busy(answer: u32) -> bool {
    number(answer) == WRONG_TIME && answer & OF_COVER == 0
}

fn is_of_cover(answer: u32) -> bool {
    number(answer) == WRONG_TIME && answer & OF_COVER != 0
}

/// The kind of a word, by its identifier.
fn kind_of(word: u16) -> u8 {
    (Paper::decode(word) >> 16) as u8
}

fn is_sin_m(word: u16) -> bool {
    kind_of(word) == kind::SIN_M
}

/// The answer that a word is out of turn, where this kind was due.
fn due(kind: u8) -> u32 {
    OUT_OF_TURN | u32::from(kind) << 8
}

/// The mirror word that is due after so many words of a set.
fn next(begun: u16) -> u8 {
    kind::SIN_M + begun as u8
}

fn ticks(count: u16) -> u32 {
    WRONG_TIME | u32::from(count) << 8
}

fn is_in_range(state: &[u16]) -> bool {
    Paper::in_range(state) == 0
}

fn busy_one_more(state: &[u16], word: u16) -> u32 {
    match Library::why(state, word) {
        answer if is_busy(answer) => answer + ONE_TICK,
        answer => answer,
    }
}

fn busy_one_less(state: &[u16], word: u16) -> u32 {
    match Paper::why(state, word) {
        answer if is_busy(answer) => answer - ONE_TICK,
        answer => answer,
    }
}

fn ticks_of_12_bits(state: &[u16], word: u16) -> u32 {
    match Library::why(state, word) {
        answer if is_busy(answer) => answer & 0x0F_FFFF,
        answer => answer,
    }
}

fn names_word_that_came(state: &[u16], word: u16) -> u32 {
    match Paper::why(state, word) {
        answer if number(answer) == OUT_OF_TURN => due(kind_of(word)),
        answer => answer,
    }
}

fn never_names_sin_m(state: &[u16], word: u16) -> u32 {
    match Library::why(state, word) {
        answer if answer == due(kind::SIN_M) => due(kind::SIN_L),
        answer => answer,
    }
}

fn names_last_word(state: &[u16], word: u16) -> u32 {
    match Paper::why(state, word) {
        answer if number(answer) == OUT_OF_TURN => answer.max(due(kind::SIN_L)) - (1 << 8),
        answer => answer,
    }
}

fn sin_m_out_of_turn(state: &[u16], word: u16) -> u32 {
    let answer = Paper::why(state, word);
    match state.get(place::SET_WORDS) {
        Some(&begun @ 1..) if answer == 0 && is_sin_m(word) => due(next(begun)),
        _ => answer,
    }
}

fn cover_as_busy(state: &[u16], word: u16) -> u32 {
    Paper::why(state, word) & !OF_COVER
}

fn busy_as_cover(state: &[u16], word: u16) -> u32 {
    match Library::why(state, word) {
        answer if is_busy(answer) => answer | OF_COVER,
        answer => answer,
    }
}

/// Asks as if the head were idle.
fn cover_before_busy(state: &[u16], word: u16) -> u32 {
    let answer = Paper::why(state, word);
    if !is_busy(answer) {
        return answer;
    }
    let mut idle = state.to_vec();
    idle[place::TASK..=place::BUSY].fill(0);
    match Paper::why(&idle, word) {
        of_cover if is_of_cover(of_cover) => of_cover,
        _ => answer,
    }
}

fn ticks_of_mirror(state: &[u16], word: u16) -> u32 {
    match Paper::why(state, word) {
        answer if is_of_cover(answer) => ticks(state[place::MIRROR_MOTION]) | OF_COVER,
        answer => answer,
    }
}

fn mirror_must_rest(state: &[u16], word: u16) -> u32 {
    let answer = Library::why(state, word);
    match state.get(place::MIRROR_MOTION) {
        Some(&motion @ 1..) if answer == 0 && is_sin_m(word) => ticks(motion),
        _ => answer,
    }
}

fn busy_before_state(state: &[u16], word: u16) -> u32 {
    match state.get(place::BUSY) {
        Some(&busy @ 1..) if state.len() == STATE_LENGTH && word != STOP => ticks(busy),
        _ => Paper::why(state, word),
    }
}

fn identifier_before_state(state: &[u16], word: u16) -> u32 {
    match (Library::why(state, word), Library::decode(word) >> 24) {
        (STATE_REFUSED, UNKNOWN) => UNKNOWN | u32::from(word) << 8,
        (answer, _) => answer,
    }
}

fn exchanges_23_and_24(state: &[u16], word: u16) -> u32 {
    match Paper::why(state, word) {
        answer if number(answer) == UNKNOWN => answer + 1,
        answer if number(answer) == OUT_OF_RANGE => answer - 1,
        answer => answer,
    }
}

fn data_for_word(state: &[u16], word: u16) -> u32 {
    match Library::why(state, word) {
        answer if [UNKNOWN, OUT_OF_RANGE].contains(&number(answer)) => answer & 0x03_FFFF,
        answer => answer,
    }
}

fn stop_at_wrong_time(state: &[u16], word: u16) -> u32 {
    match word {
        STOP if is_in_range(state) && state[place::BUSY] > 0 => ticks(state[place::BUSY]),
        _ => Paper::why(state, word),
    }
}

fn c001_out_of_range(state: &[u16], word: u16) -> u32 {
    match Library::why(state, word) {
        answer if is_busy(answer) && word & 0xFC00 == STOP => OUT_OF_RANGE | u32::from(word) << 8,
        answer => answer,
    }
}

fn cover_time_before_range(state: &[u16], word: u16) -> u32 {
    let answer = Paper::why(state, word);
    let is_cover = kind_of(word) == kind::COVER;
    match number(answer) == OUT_OF_RANGE && is_cover && state[place::COVER_MOTION] > 0 {
        true => ticks(state[place::COVER_MOTION]) | OF_COVER,
        false => answer,
    }
}

fn mirror_turn_before_range(state: &[u16], word: u16) -> u32 {
    let answer = Library::why(state, word);
    let is_mirror = (kind::SIN_M..=kind::COS_L).contains(&kind_of(word));
    match number(answer) == OUT_OF_RANGE && is_mirror {
        true => due(next(state[place::SET_WORDS])),
        false => answer,
    }
}

fn tells_act(state: &[u16], word: u16) -> u32 {
    match Library::why(state, word) {
        0 => Library::word(&mut state.to_vec(), word),
        answer => answer,
    }
}

fn takes_36_places(state: &[u16], word: u16) -> u32 {
    match state.len() {
        36 => Paper::why(&state[..STATE_LENGTH], word),
        _ => Paper::why(state, word),
    }
}

fn task_ends_twice_as_fast(state: &mut [u16]) -> u32 {
    match Library::tick(state) {
        0 if state[place::BUSY] > 0 => Library::tick(state),
        answer => answer,
    }
}

fn takes_every_mirror_word(state: &mut [u16], word: u16) -> u32 {
    match Library::word(state, word) {
        OUT_OF_TURN => 0,
        answer => answer,
    }
}

fn ignores_sin_m(state: &mut [u16], word: u16) -> u32 {
    match Library::word(state, word) {
        0 if is_sin_m(word) => OUT_OF_TURN,
        answer => answer,
    }
}
