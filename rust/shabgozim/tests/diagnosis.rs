//! Why a word did nothing, through the wrapper.

use shabgozim::{
    decode, kind, place, raw, Cause, Decoded, Diagnosis, Outcome, State, EXPLANATION_LENGTH,
};

const START: u16 = 0x8000;
const HK: u16 = 0x4000;
const STOP: u16 = 0xC000;
const IR_EXPO_200: u16 = 0x08C8;
/// The cover opens by one step, which takes 25 ticks.
const COVER: u16 = 0x1201;
const UNKNOWN: u16 = 0x3800;
const MIRROR: [u16; 4] = [0x2011, 0xA000, 0x600F, 0xE0F8];
const MIRROR_KINDS: [u8; 4] = [kind::SIN_M, kind::SIN_L, kind::COS_M, kind::COS_L];

/// The bit of the moving cover.
const BY_COVER: u32 = 1 << 31;
/// A byte that the library does not write.
const UNTOUCHED: u8 = 0xAA;

/// The names of the kinds in document 01's table, read row by row.
const NAMES: [&str; kind::COUNT as usize] = [
    "NOP",
    "START",
    "HK",
    "STOP",
    "IR DETECTOR",
    "IR WIN MODE",
    "VDETCOM M",
    "VDETCOM L",
    "VDETADJ M",
    "VDETADJ L",
    "IR DELAY",
    "IR EXPO",
    "WIN X1",
    "WIN Y1",
    "WIN X2",
    "WIN Y2",
    "CCD DELAY",
    "CCD EXPO",
    "CCD LAMP",
    "IR LAMP",
    "SHUTTER",
    "ANNEALING",
    "SIN M",
    "SIN L",
    "COS M",
    "COS L",
    "SWITCH",
    "COVER",
];

/// A head that got these words after power-on.
fn after(words: &[u16]) -> State {
    let mut head = State::power_on();
    for &word in words {
        head.word(word);
    }
    head
}

fn out_of_range() -> State {
    let mut state = State::power_on();
    state.numbers[place::CCD_DELAY] = 4;
    state
}

/// States in which every rule is met by some word.
fn states() -> Vec<State> {
    let mut states = vec![
        State::power_on(),
        after(&[START]),
        after(&[HK]),
        after(&[COVER]),
        after(&[COVER, START]),
        after(&[COVER, MIRROR[0]]),
        after(&[MIRROR[0], START]),
        out_of_range(),
    ];
    states.extend((1..=4).map(|count| after(&MIRROR[..count])));
    states
}

/// The answer in words, if it is one.
fn explained(why: u32) -> Option<String> {
    let mut text = [UNTOUCHED; EXPLANATION_LENGTH];
    let length = raw::explanation(why, &mut text) as usize;
    let (line, rest) = text.split_at(length);
    assert!(rest.iter().all(|&byte| byte == UNTOUCHED), "{why:08X}");
    let line = String::from_utf8(line.to_vec()).expect("ASCII");
    (length > 0).then_some(line)
}

fn name_of(number: u8) -> &'static str {
    NAMES.get(usize::from(number)).unwrap_or(&"unknown")
}

#[test]
fn a_taken_word() {
    for word in [START, HK, STOP, IR_EXPO_200, COVER, MIRROR[0], 0] {
        let why = State::power_on().why(word);
        assert_eq!(why, Diagnosis::Taken, "{word:04X}");
        assert!(why.is_taken());
    }
    assert!(after(&[START]).why(STOP).is_taken());
}

#[test]
fn a_busy_head_and_its_ticks() {
    for (task, length) in [(START, 158), (HK, 3)] {
        let mut head = after(&[task]);
        for ticks in (1..=length).rev() {
            for word in [HK, COVER, MIRROR[1], UNKNOWN, 0xC001, 0] {
                assert_eq!(head.why(word), Diagnosis::Busy { ticks }, "{word:04X}");
            }
            assert!(head.why(STOP).is_taken());
            head.tick();
        }
        assert!(head.why(HK).is_taken());
    }
}

#[test]
fn a_moving_cover_and_its_ticks() {
    let mut head = after(&[COVER]);
    for ticks in (1..=25).rev() {
        assert_eq!(head.why(COVER), Diagnosis::CoverMoving { ticks });
        assert!(head.why(IR_EXPO_200).is_taken());
        head.tick();
    }
    assert!(head.why(COVER).is_taken());
    // The most steps, 81; no steps are a move that takes no time.
    let ticks = 2025;
    assert_eq!(
        after(&[0x12D1]).why(0x1000),
        Diagnosis::CoverMoving { ticks }
    );
    assert!(after(&[0x1200]).why(COVER).is_taken());
}

#[test]
fn an_unknown_identifier_and_data_out_of_range() {
    let head = State::power_on();
    for word in 0..=u16::MAX {
        let expected = match decode(word) {
            Decoded::Word { .. } => continue,
            Decoded::Unknown => Diagnosis::UnknownIdentifier { word },
            Decoded::OutOfRange { kind } => Diagnosis::DataOutOfRange { word, kind },
        };
        assert_eq!(head.why(word), expected);
    }
    let kind = kind::WIN_Y1;
    let word = 0xAA00;
    assert_eq!(head.why(word), Diagnosis::DataOutOfRange { word, kind });
}

#[test]
fn a_mirror_word_out_of_turn_and_the_one_that_was_due() {
    for (received, due) in MIRROR_KINDS.into_iter().enumerate() {
        let head = after(&MIRROR[..received]);
        assert!(head.why(MIRROR[0]).is_taken(), "SIN M begins afresh");
        for (place, word) in MIRROR.into_iter().enumerate().skip(1) {
            let expected = match place == received {
                true => Diagnosis::Taken,
                false => Diagnosis::OutOfTurn { due },
            };
            assert_eq!(head.why(word), expected, "{word:04X} after {received}");
        }
        assert!(head.why(MIRROR[received]).is_taken());
    }
    // The whole set has come, and a new one is due.
    let due = kind::SIN_M;
    assert_eq!(after(&MIRROR).why(MIRROR[3]), Diagnosis::OutOfTurn { due });
}

#[test]
fn a_state_out_of_range() {
    for word in [START, STOP, COVER, UNKNOWN, 0xC001, MIRROR[1]] {
        let why = out_of_range().why(word);
        assert_eq!(why, Diagnosis::StateOutOfRange, "{word:04X}");
    }
}

#[test]
fn the_first_rule_that_stops_the_word_is_named() {
    // Out of range comes before the moving cover and before the turn.
    let (word, kind) = (0x1052, kind::COVER);
    let expected = Diagnosis::DataOutOfRange { word, kind };
    assert_eq!(after(&[COVER]).why(word), expected);
    let (word, kind) = (0xA100, kind::SIN_L);
    let expected = Diagnosis::DataOutOfRange { word, kind };
    assert_eq!(State::power_on().why(word), expected);
    // Busy comes before the moving cover.
    let ticks = 158;
    let both = after(&[COVER, START]);
    assert_eq!(both.why(COVER), Diagnosis::Busy { ticks });
}

#[test]
fn the_rule_is_the_one_that_the_head_applies() {
    for state in states() {
        for word in 0..=u16::MAX {
            let why = state.why(word);
            let mut head = state;
            let number = match head.word(word) {
                Outcome::Taken(_) => 0,
                Outcome::Ignored(cause) => cause.number(),
            };
            assert_eq!(why.number(), number, "{word:04X} {state:?}");
            assert_eq!(why.is_taken(), number == 0);
        }
    }
}

#[test]
fn diagnoses_have_the_numbers_of_the_causes() {
    let (ticks, word, kind, due) = (1, 0x3800, 0, 22);
    for (why, cause) in [
        (Diagnosis::StateOutOfRange, Cause::StateOutOfRange),
        (Diagnosis::Busy { ticks }, Cause::WrongTime),
        (Diagnosis::CoverMoving { ticks }, Cause::WrongTime),
        (
            Diagnosis::UnknownIdentifier { word },
            Cause::UnknownIdentifier,
        ),
        (
            Diagnosis::DataOutOfRange { word, kind },
            Cause::DataOutOfRange,
        ),
        (Diagnosis::OutOfTurn { due }, Cause::OutOfTurn),
    ] {
        assert_eq!(why.number(), cause.number());
        assert!(!why.is_taken());
    }
    assert_eq!(Diagnosis::Taken.number(), 0);
}

#[test]
fn ticks_left_in_words() {
    for (why, words) in [
        (
            Diagnosis::Busy { ticks: 158 },
            "the head is busy: 158 ticks left, 1.58 s; only STOP is taken",
        ),
        (
            Diagnosis::Busy { ticks: 1 },
            "the head is busy: 1 tick left, 0.01 s; only STOP is taken",
        ),
        (
            Diagnosis::Busy { ticks: 4238 },
            "the head is busy: 4238 ticks left, 42.38 s; only STOP is taken",
        ),
        (
            Diagnosis::CoverMoving { ticks: 25 },
            "the cover moves: 25 ticks left, 0.25 s; no COVER is taken",
        ),
        (
            Diagnosis::CoverMoving { ticks: 1 },
            "the cover moves: 1 tick left, 0.01 s; no COVER is taken",
        ),
    ] {
        assert_eq!(why.to_string(), words);
    }
}

#[test]
fn other_diagnoses_in_words() {
    for (why, words) in [
        (Diagnosis::Taken, "taken"),
        (Diagnosis::StateOutOfRange, "the state is out of range"),
        (
            Diagnosis::UnknownIdentifier { word: UNKNOWN },
            "no kind has the identifier of word 3800",
        ),
        (
            State::power_on().why(0xAA00),
            "the data of word AA00 are out of the range of WIN Y1",
        ),
        (
            Diagnosis::OutOfTurn { due: kind::SIN_M },
            "a mirror word out of turn: SIN M was due",
        ),
    ] {
        assert_eq!(why.to_string(), words);
    }
    assert_eq!(format!("{:8}|", Diagnosis::Taken), "taken   |");
}

#[test]
fn the_line_of_every_word_and_kind() {
    let head = State::power_on();
    for word in 0..=u16::MAX {
        match head.why(word) {
            why @ Diagnosis::DataOutOfRange { kind, .. } => {
                let name = name_of(kind);
                let words = format!("the data of word {word:04X} are out of the range of {name}");
                assert_eq!(why.to_string(), words);
            }
            why @ Diagnosis::UnknownIdentifier { .. } => {
                let words = format!("no kind has the identifier of word {word:04X}");
                assert_eq!(why.to_string(), words);
            }
            _ => {}
        }
    }
    for due in 0..=u8::MAX {
        let words = format!("a mirror word out of turn: {} was due", name_of(due));
        assert_eq!(Diagnosis::OutOfTurn { due }.to_string(), words);
    }
}

#[test]
fn the_line_of_all_ticks() {
    for ticks in 0..=u16::MAX {
        let plural = if ticks == 1 { "" } else { "s" };
        let (seconds, hundredths) = (ticks / 100, ticks % 100);
        let left = format!("{ticks} tick{plural} left, {seconds}.{hundredths:02} s");
        let busy = format!("the head is busy: {left}; only STOP is taken");
        assert_eq!(Diagnosis::Busy { ticks }.to_string(), busy);
        let cover = format!("the cover moves: {left}; no COVER is taken");
        assert_eq!(Diagnosis::CoverMoving { ticks }.to_string(), cover);
    }
}

#[test]
fn packed_answers() {
    let power_on = State::power_on().numbers;
    assert_eq!(raw::why(&power_on, START), 0);
    assert_eq!(raw::why(&power_on, UNKNOWN), 0x0038_0017);
    assert_eq!(raw::why(&power_on, 0xAA00), 0x00AA_0018);
    assert_eq!(raw::why(&power_on, MIRROR[1]), 22 << 8 | 25);
    assert_eq!(
        raw::why(&after(&MIRROR[..3]).numbers, MIRROR[1]),
        25 << 8 | 25
    );
    assert_eq!(raw::why(&after(&[START]).numbers, HK), 158 << 8 | 22);
    let moving = after(&[COVER]).numbers;
    assert_eq!(raw::why(&moving, COVER), BY_COVER | 25 << 8 | 22);
    assert_eq!(raw::why(&out_of_range().numbers, START), 21);
    for state in states() {
        for word in 0..=u16::MAX {
            let why = raw::why(&state.numbers, word);
            assert_eq!(why & 0x7F00_0000, 0, "{word:04X} {state:?}");
            let is_explained = raw::explanation(why, &mut [0; EXPLANATION_LENGTH]) > 0;
            assert!(is_explained, "{why:08X}");
        }
    }
}

#[test]
fn states_of_any_length() {
    let numbers = [&State::power_on().numbers[..], &[0]].concat();
    for length in [0, 1, 34, 36] {
        for word in [START, STOP, UNKNOWN, MIRROR[1]] {
            let why = raw::why(&numbers[..length], word);
            assert_eq!(why, 21, "{length} numbers");
        }
    }
    assert_eq!(raw::why(&numbers[..35], START), 0);
}

#[test]
fn what_is_no_answer_has_no_words() {
    for number in (0..=0xFF).filter(|number| ![0, 21, 22, 23, 24, 25].contains(number)) {
        for rest in [0, 1 << 8, 1 << 31, 0xFFFF_FF00] {
            assert_eq!(explained(number | rest), None, "{number} {rest:08X}");
        }
    }
    // The bits above the lowest eight that must be 0.
    for (number, zero) in [
        (0, 0xFFFF_FF00),
        (21, 0xFFFF_FF00),
        (22, 0x7F00_0000),
        (23, 0xFF00_0000),
        (24, 0xFF00_0000),
        (25, 0xFFFF_0000),
    ] {
        for bit in (8..32).map(|place| 1u32 << place) {
            let is_answer = bit & zero == 0;
            assert_eq!(explained(number | bit).is_some(), is_answer, "{number}");
            assert_eq!(explained(number | zero | bit), None, "{number}");
        }
        let most = explained(number | !zero & 0xFFFF_FF00);
        assert!(most.is_some_and(|line| line.ends_with('\n')), "{number}");
    }
}

#[test]
fn an_explanation_wants_its_room() {
    let mut text = [UNTOUCHED; EXPLANATION_LENGTH];
    for (why, words) in [
        (0, "taken\n"),
        (21, "the state is out of range\n"),
        (25 << 8 | 25, "a mirror word out of turn: COS L was due\n"),
    ] {
        for short in [0, 1, words.len() - 1] {
            assert_eq!(raw::explanation(why, &mut text[..short]), 0, "{short}");
        }
        assert_eq!(text, [UNTOUCHED; EXPLANATION_LENGTH]);
        let length = raw::explanation(why, &mut text[..words.len()]) as usize;
        assert_eq!(&text[..length], words.as_bytes());
        assert!(text[length..].iter().all(|&byte| byte == UNTOUCHED));
        text.fill(UNTOUCHED);
    }
}
