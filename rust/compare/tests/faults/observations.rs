//! Faults in what the CCD operator observes, and such by which he learns of
//! infrared words.

use crate::fault::{changes, Fault};
use compare::sides::{Library, Shown, Side};
use paper::{BusyTicks, Given, Observation, State, Tick};
use shabgozim::{kind, place};

const OBSERVATION: &str = "observation";
const EQUAL: &str = "equal observations";

const CCD: u8 = 0;
const INFRARED: u8 = 1;
const NOT_PASSED: u32 = 51;
/// Where the CCD block shows flags, and in which bits.
const FLAG_WORD: usize = 24;

pub const FAULTS: &[Fault] = &[
    Fault {
        name: "an infrared word is passed on while the head is busy",
        put: |sides| sides.library.pass_on = infrared_while_busy,
        part: OBSERVATION,
        is_reduced: |text| {
            ticks(text) == 1 && changes(text) == 2 && text.contains("\ntick 0, flag word: ")
        },
    },
    Fault {
        name: "a CCD word is refused while the mirror moves",
        put: |sides| sides.library.pass_on = no_ccd_word_while_mirror_moves,
        part: OBSERVATION,
        is_reduced: |text| {
            ticks(text) == 1
                && changes(text) == 1
                && text.contains("[CCD ")
                && text.ends_with("own word: library Some(51), paper Some(0)")
        },
    },
    Fault {
        name: "a task's end shows no flags",
        put: |sides| sides.library.tick = leaves_flags_out,
        part: OBSERVATION,
        is_reduced: |text| ticks(text) == 1 && changes(text) == 3,
    },
    Fault {
        name: "the caller's bit is written elsewhere",
        put: |sides| sides.library.write_ccd = latch_up_in_next_bit,
        part: OBSERVATION,
        is_reduced: |text| {
            ticks(text) == 1 && changes(text) == 2 && text.contains("\nticks [nothing, VIS bit]\n")
        },
    },
    Fault {
        name: "the caller's bit is not shown",
        put: |sides| sides.typed.observe = without_callers_bit,
        part: OBSERVATION,
        is_reduced: |text| {
            ticks(text) == 1 && changes(text) == 2 && text.contains("\nticks [nothing, VIS bit]\n")
        },
    },
    Fault {
        name: "the answer to an infrared word is told",
        put: |sides| sides.typed.observe = tells_infrared_answer,
        part: OBSERVATION,
        is_reduced: |text| {
            ticks(text) == 1 && changes(text) == 0 && text.contains("\ntick 0, own word: ")
        },
    },
    Fault {
        name: "the registers are told as the word finds them",
        put: |sides| sides.typed.observe = registers_before_word,
        part: OBSERVATION,
        is_reduced: |text| {
            ticks(text) == 1 && changes(text) <= 1 && text.contains("\ntick 0, after the word: ")
        },
    },
    Fault {
        name: "the registers at the end are those at the start",
        put: |sides| sides.typed.observe = ends_as_it_began,
        part: OBSERVATION,
        is_reduced: |text| ticks(text) == 1 && changes(text) <= 1 && text.contains("\nend: "),
    },
    Fault {
        name: "housekeeping is shown as an acquisition",
        put: |sides| sides.library.write_ccd = always_after_acquisition,
        part: OBSERVATION,
        is_reduced: |text| ticks(text) == 1 && changes(text) == 2,
    },
    Fault {
        name: "busy is told after the word",
        put: |sides| sides.typed.busy_ticks = busy_after_word,
        part: OBSERVATION,
        is_reduced: |text| {
            ticks(text) == 1 && changes(text) <= 2 && text.contains("\ntick 0, busy: ")
        },
    },
    Fault {
        name: "an infrared word is passed on while the head is busy",
        put: |sides| sides.library.pass_on = infrared_while_busy,
        part: EQUAL,
        is_reduced: |text| ticks(text) == 1 && changes(text) == 4 && tells_flags(text),
    },
    Fault {
        name: "an infrared word that is not allowed is passed on",
        put: |sides| sides.library.pass_on = unknown_is_passed,
        part: EQUAL,
        // The flag is raised, and shown after a task.
        is_reduced: |text| ticks(text) <= 5 && changes(text) <= 4 && tells_flags(text),
    },
    Fault {
        name: "IR LAMP sets both lamps",
        put: |sides| sides.library.pass_on = one_word_for_both_lamps,
        part: EQUAL,
        is_reduced: |text| {
            ticks(text) == 1 && changes(text) == 0 && text.contains("\ntick 0, after the word: ")
        },
    },
    Fault {
        name: "a CCD word is refused while the mirror moves",
        put: |sides| sides.library.pass_on = no_ccd_word_while_mirror_moves,
        part: EQUAL,
        is_reduced: |text| {
            ticks(text) == 1 && changes(text) == 1 && text.contains("\ntick 0, own word: ")
        },
    },
    Fault {
        name: "the IR time flag is shown as the VIS time flag",
        put: |sides| sides.library.write_ccd = ir_time_as_vis_time,
        part: EQUAL,
        is_reduced: |text| ticks(text) == 1 && changes(text) == 5 && tells_flags(text),
    },
    Fault {
        name: "the IR lamp is shown as the CCD lamp",
        put: |sides| sides.library.write_ccd = ir_lamp_as_ccd_lamp,
        part: EQUAL,
        is_reduced: |text| ticks(text) == 1 && changes(text) == 5 && tells_flags(text),
    },
    Fault {
        name: "no task ends",
        put: |sides| sides.library.tick = tells_no_end,
        part: EQUAL,
        is_reduced: |text| text == "no two runs differ and end a task",
    },
];

/// How many ticks the runs of a case have.
fn ticks(text: &str) -> usize {
    let line = text.lines().find(|line| line.starts_with("ticks"));
    line.expect("a run").matches('[').count()
}

fn tells_flags(text: &str) -> bool {
    text.contains(", flag word: first Some(")
}

/// The kind of an allowed word.
fn allowed(word: u16) -> Option<u8> {
    let decoded = Library::decode(word);
    (decoded >> 24 == 0).then_some((decoded >> 16) as u8)
}

fn infrared_while_busy(state: &mut [u16], operator: u8, word: u16) -> u32 {
    let is_infrared = allowed(word).is_some_and(|kind| Library::group(kind) == 1);
    match operator == INFRARED && is_infrared {
        true => Library::word(state, word),
        false => Library::pass_on(state, operator, word),
    }
}

fn no_ccd_word_while_mirror_moves(state: &mut [u16], operator: u8, word: u16) -> u32 {
    match operator == CCD && state[place::MIRROR_MOTION] > 0 {
        true => NOT_PASSED,
        false => Library::pass_on(state, operator, word),
    }
}

fn unknown_is_passed(state: &mut [u16], operator: u8, word: u16) -> u32 {
    let is_unknown = Library::decode(word) >> 24 == 23;
    match operator == INFRARED && state[place::BUSY] == 0 && is_unknown {
        true => Library::word(state, word),
        false => Library::pass_on(state, operator, word),
    }
}

fn one_word_for_both_lamps(state: &mut [u16], operator: u8, word: u16) -> u32 {
    let answer = Library::pass_on(state, operator, word);
    if let (0, Some(kind::IR_LAMP)) = (answer, allowed(word)) {
        state[place::CCD_LAMP] = word & 7;
    }
    answer
}

fn leaves_flags_out(state: &mut [u16]) -> u32 {
    Library::tick(state) & 0xFF
}

fn tells_no_end(state: &mut [u16]) -> u32 {
    match Library::tick(state) & 0xFF {
        1 | 2 => 0,
        answer => answer,
    }
}

/// The library's block, its flag word changed.
fn with_flag_word(
    state: &[u16],
    shown: Shown,
    readings: &[u16],
    block: &mut [u16],
    change: impl Fn(&mut u16),
) -> u32 {
    let answer = Library::write_ccd(state, shown, readings, block);
    if answer == 0 {
        change(&mut block[FLAG_WORD]);
    }
    answer
}

fn latch_up_in_next_bit(state: &[u16], shown: Shown, readings: &[u16], block: &mut [u16]) -> u32 {
    let without = Shown { bits: 0, ..shown };
    let mut plain = block.to_vec();
    Library::write_ccd(state, without, readings, &mut plain);
    with_flag_word(state, shown, readings, block, |word| {
        let bit = *word ^ plain[FLAG_WORD];
        *word ^= bit | bit << 1;
    })
}

fn always_after_acquisition(
    state: &[u16],
    shown: Shown,
    readings: &[u16],
    block: &mut [u16],
) -> u32 {
    Library::write_ccd(state, Shown { ended: 1, ..shown }, readings, block)
}

/// Flags are IR time, IR word, scan, VIS time and VIS word.
fn ir_time_as_vis_time(state: &[u16], shown: Shown, readings: &[u16], block: &mut [u16]) -> u32 {
    let flags = shown.flags | (shown.flags & 1) << 3;
    Library::write_ccd(state, Shown { flags, ..shown }, readings, block)
}

fn ir_lamp_as_ccd_lamp(state: &[u16], shown: Shown, readings: &[u16], block: &mut [u16]) -> u32 {
    let mut state = state.to_vec();
    state[place::CCD_LAMP] = state[place::IR_LAMP] & 7;
    Library::write_ccd(&state, shown, readings, block)
}

fn without_callers_bit(state: &State, run: &[Tick]) -> Observation {
    let ticks = run.iter().map(|tick| Tick {
        vis_latch_up: false,
        ..*tick
    });
    paper::observe(state, &ticks.collect::<Vec<_>>())
}

fn tells_infrared_answer(state: &State, run: &[Tick]) -> Observation {
    let mut observation = paper::observe(state, run);
    for (seen, tick) in observation.ticks.iter_mut().zip(run) {
        if let Given::ByInfrared(_) = tick.given {
            seen.own_word = Some(0);
        }
    }
    observation
}

fn registers_before_word(state: &State, run: &[Tick]) -> Observation {
    let mut observation = paper::observe(state, run);
    for seen in &mut observation.ticks {
        seen.after_word = seen.before;
    }
    observation
}

fn ends_as_it_began(state: &State, run: &[Tick]) -> Observation {
    let mut observation = paper::observe(state, run);
    observation.end = paper::CcdRegisters::of(state);
    observation
}

fn busy_after_word(state: &State, run: &[Tick]) -> BusyTicks {
    let mut busy = paper::busy_ticks(state, run);
    for (busy, tick) in busy.ticks.iter_mut().zip(run) {
        match tick.given {
            Given::ByController(0x8000 | 0x4000) => *busy = true,
            Given::ByController(0xC000) => *busy = false,
            _ => {}
        }
    }
    busy
}
