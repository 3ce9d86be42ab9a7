//! Faults in the groups of words, and in what is passed on to the head.

use crate::fault::{changes, Fault};
use compare::sides::{Library, Paper, Side};
use shabgozim::{kind, place, STATE_LENGTH};

const GROUPS: &str = "groups";
const PASSING: &str = "passing on";

const CCD: u8 = 0;
const INFRARED: u8 = 1;
const START: u16 = 0x8000;
const STOP: u16 = 0xC000;
const STATE_REFUSED: u32 = 21;
const WRONG_TIME: u32 = 22;
const OUT_OF_TURN: u32 = 25;
const NOT_PASSED: u32 = 51;

pub const FAULTS: &[Fault] = &[
    Fault {
        name: "COVER is counted to the CCD group",
        put: |sides| sides.paper.group = cover_is_ccd,
        part: GROUPS,
        is_reduced: |text| text == "group of kind 27\nanswer: library 1, paper 0",
    },
    Fault {
        name: "the CCD lamp is counted to the other lamps",
        put: |sides| sides.library.group = ccd_lamp_is_infrared,
        part: GROUPS,
        is_reduced: |text| text == "group of kind 18\nanswer: library 1, paper 0",
    },
    Fault {
        name: "NOP is counted to the rest",
        put: |sides| sides.paper.group = nop_is_infrared,
        part: GROUPS,
        is_reduced: |text| text == "group of kind 0\nanswer: library 2, paper 1",
    },
    Fault {
        name: "what is no kind is counted to the rest",
        put: |sides| sides.paper.group = no_kind_is_infrared,
        part: GROUPS,
        is_reduced: |text| text == "group of kind 28\nanswer: library 3, paper 1",
    },
    Fault {
        name: "a kind's number is taken modulo 128",
        put: |sides| sides.library.group = kind_of_7_bits,
        part: GROUPS,
        is_reduced: |text| text == "group of kind 128\nanswer: library 2, paper 3",
    },
    Fault {
        name: "an infrared word is passed on while the head is busy",
        put: |sides| sides.paper.pass_on = infrared_while_busy,
        part: PASSING,
        is_reduced: |text| {
            is_passing(text, INFRARED, "answer: library 0x33, paper 0x16") && is_busy(text)
        },
    },
    Fault {
        name: "a CCD word is passed on to a head busy with housekeeping",
        put: |sides| sides.library.pass_on = ccd_while_housekeeping,
        part: PASSING,
        is_reduced: |text| {
            is_passing(text, CCD, "answer: library 0x16, paper 0x33") && is_busy(text)
        },
    },
    Fault {
        name: "COVER is passed on from the CCD operator",
        put: |sides| sides.paper.pass_on = cover_from_ccd,
        part: PASSING,
        is_reduced: |text| {
            text == "word 1000 by operator 0 from power-on\nanswer: library 0x33, paper 0x1000"
        },
    },
    Fault {
        name: "51 is tried before 21",
        put: |sides| sides.paper.pass_on = word_before_state,
        part: PASSING,
        is_reduced: |text| text.ends_with("\nanswer: library 0x15, paper 0x33"),
    },
    Fault {
        name: "a head that is busy is judged before its state",
        put: |sides| sides.paper.pass_on = busy_before_state,
        part: PASSING,
        is_reduced: |text| {
            text.ends_with("\nanswer: library 0x15, paper 0x33") && changes(text) <= 2
        },
    },
    Fault {
        name: "a word that is not passed on sets the time flag",
        put: |sides| sides.paper.pass_on = time_flag_on_51,
        part: PASSING,
        is_reduced: |text| text.ends_with("\nstate[25]: library 0x0, paper 0x1") && is_busy(text),
    },
    Fault {
        name: "a word that is not allowed drops a begun mirror set",
        put: |sides| sides.library.pass_on = drops_set_on_51,
        part: PASSING,
        is_reduced: |text| {
            text.ends_with("\nstate[31]: library 0x0, paper 0x1") && changes(text) == 1
        },
    },
    Fault {
        name: "a refused state is put in range",
        put: |sides| sides.paper.pass_on = mends_state,
        part: PASSING,
        is_reduced: |text| text.contains(" from power-on, detector (0) = ") && changes(text) == 1,
    },
    Fault {
        name: "operator 2 is taken for the controller",
        put: |sides| sides.paper.pass_on = operator_2_is_controller,
        part: PASSING,
        is_reduced: |text| {
            is_passing(text, 2, "answer: library 0x33, paper 0x2") && changes(text) == 0
        },
    },
    Fault {
        name: "every other number is taken for the infrared operator",
        put: |sides| sides.library.pass_on = others_are_infrared,
        part: PASSING,
        is_reduced: |text| {
            is_passing(text, 2, "answer: library 0x0, paper 0x33") && changes(text) == 0
        },
    },
    Fault {
        name: "an operator's number is taken modulo 128",
        put: |sides| sides.paper.pass_on = operator_of_7_bits,
        part: PASSING,
        is_reduced: |text| text.contains(" by operator 128 from power-on\n"),
    },
    Fault {
        name: "an operator may stop a task",
        put: |sides| sides.paper.pass_on = stops_task,
        part: PASSING,
        is_reduced: |text| text.starts_with("word C000 by operator ") && is_busy(text),
    },
    Fault {
        name: "an operator may start an acquisition",
        put: |sides| sides.library.pass_on = starts_acquisition,
        part: PASSING,
        is_reduced: |text| {
            text == "word 8000 by operator 1 from power-on\nanswer: library 0x1, paper 0x33"
        },
    },
    Fault {
        name: "nothing is passed on while the cover moves",
        put: |sides| sides.paper.pass_on = nothing_while_cover_moves,
        part: PASSING,
        is_reduced: |text| text.ends_with(", paper 0x33") && changes(text) == 1,
    },
    Fault {
        name: "COVER is not passed on while the cover moves",
        put: |sides| sides.paper.pass_on = cover_in_turn_alone,
        part: PASSING,
        is_reduced: |text| {
            text.starts_with("word 1000 by operator 1 from power-on, cover motion (30) = ")
                && text.ends_with("\nanswer: library 0x16, paper 0x33")
                && changes(text) == 1
        },
    },
    Fault {
        name: "a mirror word out of turn is not passed on",
        put: |sides| sides.paper.pass_on = mirror_in_turn_alone,
        part: PASSING,
        is_reduced: |text| {
            is_passing(text, INFRARED, "answer: library 0x19, paper 0x33") && changes(text) <= 1
        },
    },
    Fault {
        name: "a word of unknown identifier is passed on",
        put: |sides| sides.paper.pass_on = unknown_is_infrared,
        part: PASSING,
        is_reduced: |text| {
            is_passing(text, INFRARED, "answer: library 0x33, paper 0x17") && changes(text) == 0
        },
    },
    Fault {
        name: "a word with data out of range is passed on",
        put: |sides| sides.library.pass_on = any_data_is_passed,
        part: PASSING,
        is_reduced: |text| {
            is_passing(text, CCD, "answer: library 0x18, paper 0x33") && changes(text) == 0
        },
    },
    Fault {
        name: "a word is passed on twice",
        put: |sides| sides.paper.pass_on = passes_twice,
        part: PASSING,
        is_reduced: |text| text.contains("\nstate[") && changes(text) <= 3,
    },
    Fault {
        name: "a word that is passed on is lost",
        put: |sides| sides.library.pass_on = loses_word,
        part: PASSING,
        is_reduced: |text| text.contains("\nstate[") && changes(text) <= 1,
    },
    Fault {
        name: "a state may be one place longer",
        put: |sides| sides.paper.pass_on = takes_36_places,
        part: PASSING,
        is_reduced: |text| text.contains(" from 36 numbers ") && !text.contains("\nstate["),
    },
];

/// Whether the case is one word by this operator, and ends so.
fn is_passing(text: &str, operator: u8, end: &str) -> bool {
    text.starts_with("word ")
        && text.contains(&format!(" by operator {operator} from power-on"))
        && text.ends_with(&format!("\n{end}"))
}

/// Whether the state of the case is busy, and else as after power-on.
fn is_busy(text: &str) -> bool {
    text.contains(", task (27) = ") && text.contains(", busy (28) = ") && changes(text) == 2
}

/// The kind of an allowed word.
fn allowed(word: u16) -> Option<u8> {
    let decoded = Paper::decode(word);
    (decoded >> 24 == 0).then_some((decoded >> 16) as u8)
}

/// The group of an allowed word.
fn group_of(word: u16) -> Option<u8> {
    allowed(word).map(|kind| Paper::group(kind) as u8)
}

fn is_refused(state: &[u16]) -> bool {
    Paper::in_range(state) != 0
}

fn cover_is_ccd(kind: u8) -> u32 {
    match kind {
        kind::COVER => 0,
        _ => Paper::group(kind),
    }
}

fn ccd_lamp_is_infrared(kind: u8) -> u32 {
    match kind {
        kind::CCD_LAMP => 1,
        _ => Library::group(kind),
    }
}

fn nop_is_infrared(kind: u8) -> u32 {
    match kind {
        kind::NOP => 1,
        _ => Paper::group(kind),
    }
}

fn no_kind_is_infrared(kind: u8) -> u32 {
    match Paper::group(kind) {
        3 => 1,
        group => group,
    }
}

fn kind_of_7_bits(kind: u8) -> u32 {
    Library::group(kind & 0x7F)
}

fn infrared_while_busy(state: &mut [u16], operator: u8, word: u16) -> u32 {
    match !is_refused(state) && operator == INFRARED && group_of(word) == Some(INFRARED) {
        true => Paper::word(state, word),
        false => Paper::pass_on(state, operator, word),
    }
}

fn ccd_while_housekeeping(state: &mut [u16], operator: u8, word: u16) -> u32 {
    let is_ccd = operator == CCD && group_of(word) == Some(CCD);
    match !is_refused(state) && is_ccd && state[place::TASK] == 2 {
        true => Library::word(state, word),
        false => Library::pass_on(state, operator, word),
    }
}

fn cover_from_ccd(state: &mut [u16], operator: u8, word: u16) -> u32 {
    match (operator, allowed(word)) {
        (CCD, Some(kind::COVER)) => Paper::pass_on(state, INFRARED, word),
        _ => Paper::pass_on(state, operator, word),
    }
}

fn word_before_state(state: &mut [u16], operator: u8, word: u16) -> u32 {
    match group_of(word) {
        Some(group) if group == operator => Paper::pass_on(state, operator, word),
        _ => NOT_PASSED,
    }
}

fn busy_before_state(state: &mut [u16], operator: u8, word: u16) -> u32 {
    match state.get(place::BUSY) {
        Some(1..) => NOT_PASSED,
        _ => Paper::pass_on(state, operator, word),
    }
}

fn time_flag_on_51(state: &mut [u16], operator: u8, word: u16) -> u32 {
    let answer = Paper::pass_on(state, operator, word);
    if answer == NOT_PASSED && state[place::BUSY] > 0 {
        state[place::VIS_TIME_FLAG] = 1;
    }
    answer
}

fn drops_set_on_51(state: &mut [u16], operator: u8, word: u16) -> u32 {
    let answer = Library::pass_on(state, operator, word);
    if answer == NOT_PASSED && allowed(word).is_none() {
        state[place::SET_WORDS..STATE_LENGTH].fill(0);
    }
    answer
}

fn mends_state(state: &mut [u16], operator: u8, word: u16) -> u32 {
    let answer = Paper::pass_on(state, operator, word);
    if answer == STATE_REFUSED && state.len() == STATE_LENGTH {
        state[place::DETECTOR] &= 1;
    }
    answer
}

fn operator_2_is_controller(state: &mut [u16], operator: u8, word: u16) -> u32 {
    match !is_refused(state) && operator == 2 && group_of(word) == Some(2) {
        true => Paper::word(state, word),
        false => Paper::pass_on(state, operator, word),
    }
}

fn others_are_infrared(state: &mut [u16], operator: u8, word: u16) -> u32 {
    Library::pass_on(state, operator.min(INFRARED), word)
}

fn operator_of_7_bits(state: &mut [u16], operator: u8, word: u16) -> u32 {
    Paper::pass_on(state, operator & 0x7F, word)
}

fn stops_task(state: &mut [u16], operator: u8, word: u16) -> u32 {
    match !is_refused(state) && state[place::BUSY] > 0 && word == STOP {
        true => Paper::word(state, word),
        false => Paper::pass_on(state, operator, word),
    }
}

fn starts_acquisition(state: &mut [u16], operator: u8, word: u16) -> u32 {
    let is_idle = !is_refused(state) && state[place::BUSY] == 0;
    match is_idle && operator == INFRARED && word == START {
        true => Library::word(state, word),
        false => Library::pass_on(state, operator, word),
    }
}

fn nothing_while_cover_moves(state: &mut [u16], operator: u8, word: u16) -> u32 {
    match !is_refused(state) && state[place::COVER_MOTION] > 0 {
        true => NOT_PASSED,
        false => Paper::pass_on(state, operator, word),
    }
}

/// Refuses with 51 what the head would ignore with this number.
fn ignored_is_not_passed(state: &mut [u16], operator: u8, word: u16, number: u32) -> u32 {
    match Paper::pass_on(&mut state.to_vec(), operator, word) == number {
        true => NOT_PASSED,
        false => Paper::pass_on(state, operator, word),
    }
}

fn cover_in_turn_alone(state: &mut [u16], operator: u8, word: u16) -> u32 {
    ignored_is_not_passed(state, operator, word, WRONG_TIME)
}

fn mirror_in_turn_alone(state: &mut [u16], operator: u8, word: u16) -> u32 {
    ignored_is_not_passed(state, operator, word, OUT_OF_TURN)
}

fn unknown_is_infrared(state: &mut [u16], operator: u8, word: u16) -> u32 {
    let is_unknown = Paper::decode(word) >> 24 == 23;
    let is_idle = !is_refused(state) && state[place::BUSY] == 0;
    match is_idle && is_unknown && operator == INFRARED {
        true => Paper::word(state, word),
        false => Paper::pass_on(state, operator, word),
    }
}

fn any_data_is_passed(state: &mut [u16], operator: u8, word: u16) -> u32 {
    let decoded = Paper::decode(word);
    let is_out_of_range = decoded >> 24 == 24;
    let group = Paper::group((decoded >> 16) as u8);
    let is_idle = !is_refused(state) && state[place::BUSY] == 0;
    match is_idle && is_out_of_range && operator == CCD && group == 0 {
        true => Library::word(state, word),
        false => Library::pass_on(state, operator, word),
    }
}

fn passes_twice(state: &mut [u16], operator: u8, word: u16) -> u32 {
    let answer = Paper::pass_on(state, operator, word);
    Paper::pass_on(state, operator, word);
    answer
}

fn loses_word(state: &mut [u16], operator: u8, word: u16) -> u32 {
    Library::pass_on(&mut state.to_vec(), operator, word)
}

fn takes_36_places(state: &mut [u16], operator: u8, word: u16) -> u32 {
    match state.len() {
        36 => Paper::pass_on(&mut state[..STATE_LENGTH], operator, word),
        _ => Paper::pass_on(state, operator, word),
    }
}
