//! Why a word did nothing: the rule and its details are true of the state and
//! those of the head itself, and the lines say them.

mod common;

use common::{random_state, Random};
use paper::{decode, explanation, in_range, power_on, receive, tick, why, why_answer};
use paper::{Cause, Decoded, Kind, Outcome, State, Why};

const NOP: u16 = 0x0000;
const START: u16 = 0x8000;
const HK: u16 = 0x4000;
const STOP: u16 = 0xC000;
/// Opens the cover by one step.
const COVER: u16 = 0x1201;

/// The words of a mirror set in turn: the kind, and the first and last word.
const MIRROR_WORDS: [(Kind, u16, u16); 4] = [
    (Kind::SinM, 0x2000, 0x201F),
    (Kind::SinL, 0xA000, 0xA0FF),
    (Kind::CosM, 0x6000, 0x600F),
    (Kind::CosL, 0xE000, 0xE0FF),
];

fn busy_with(task: u16, busy: u16) -> State {
    let mut head = power_on();
    (head.task, head.busy) = (task, busy);
    head
}

fn cover_moving(ticks: u16) -> State {
    let mut head = power_on();
    head.cover_motion = ticks;
    head
}

/// A head that has taken so many words of a mirror set.
fn begun(received: usize) -> State {
    let mut head = power_on();
    for (_, _, last) in &MIRROR_WORDS[..received] {
        give(&mut head, *last);
    }
    assert_eq!(usize::from(head.mirror_set.received), received);
    head
}

/// Gives the head a word that it takes.
fn give(head: &mut State, code: u16) {
    let outcome = receive(head, code);
    assert!(matches!(outcome, Outcome::Taken(_)), "{code:04X}");
}

/// The state so many ticks later.
fn later(state: &State, ticks: u16) -> State {
    let mut head = *state;
    for _ in 0..ticks {
        tick(&mut head);
    }
    head
}

/// The head's own answer: 0, or the number of its cause.
fn by_the_head(state: &State, code: u16) -> u32 {
    let mut head = *state;
    match receive(&mut head, code) {
        Outcome::Taken(_) => 0,
        Outcome::Ignored(cause) => cause.number().into(),
    }
}

fn answer(state: &State, code: u16) -> u32 {
    why_answer(why(state, code))
}

fn line(why: u32) -> String {
    explanation(why).expect("the form of an answer")
}

#[test]
fn every_rule_with_its_details() {
    let (word, due) = (0x3800, Kind::CosM);
    let unknown = Why::UnknownIdentifier { word };
    let (word, kind) = (0xAA00, Kind::WinY1);
    let out_of_range = Why::DataOutOfRange { word, kind };
    let cover = Why::CoverMoving { ticks: 2025 };
    for (state, code, rule, packed) in [
        (power_on(), START, Why::Taken, 0),
        (busy_with(3, 1), START, Why::StateOutOfRange, 21),
        (busy_with(1, 158), START, Why::Busy { ticks: 158 }, 0x9E16),
        (busy_with(2, 3), NOP, Why::Busy { ticks: 3 }, 0x0316),
        (cover_moving(2025), COVER, cover, 0x8007_E916),
        (power_on(), 0x3800, unknown, 0x0038_0017),
        (power_on(), 0xAA00, out_of_range, 0x00AA_0018),
        (begun(2), 0xE000, Why::OutOfTurn { due }, 0x1819),
    ] {
        assert_eq!(why(&state, code), rule);
        assert_eq!(why_answer(rule), packed, "{rule:?}");
    }
}

#[test]
fn examples_of_document_01() {
    let head = power_on();
    for code in [0xD009, 0x3088, 0x1805, 0x1051, 0xA9FF, 0x2010] {
        assert_eq!(why(&head, code), Why::Taken, "{code:04X}");
    }
    for (code, kind) in [
        (0x1804, Kind::CcdDelay),
        (0x1052, Kind::Cover),
        (0xAA00, Kind::WinY1),
        (0xC001, Kind::Stop),
    ] {
        assert_eq!(why(&head, code), Why::DataOutOfRange { word: code, kind });
    }
    let word = 0x3800;
    assert_eq!(why(&head, word), Why::UnknownIdentifier { word });
    let busy = Why::Busy { ticks: 158 };
    assert_eq!(why(&busy_with(1, 158), 0xC001), busy);
}

#[test]
fn a_busy_head_takes_stop_alone() {
    let mut moving = busy_with(1, 4238);
    moving.cover_motion = 9;
    let mut in_a_set = busy_with(2, 1);
    in_a_set.mirror_set = begun(3).mirror_set;
    for state in [busy_with(1, 1), busy_with(2, 3), moving, in_a_set] {
        let ticks = state.busy;
        for code in 0..=u16::MAX {
            let expected = match code {
                STOP => Why::Taken,
                _ => Why::Busy { ticks },
            };
            assert_eq!(why(&state, code), expected, "{code:04X}");
        }
    }
}

#[test]
fn the_moving_cover_stops_allowed_cover_words_alone() {
    let ticks = 7;
    let state = cover_moving(ticks);
    let mut stopped = 0;
    for code in 0..=u16::MAX {
        let is_cover = (0x1000..=0x13FF).contains(&code) && code & 0x7F <= 81;
        let expected = match is_cover {
            true => Why::CoverMoving { ticks },
            false => why(&power_on(), code),
        };
        assert_eq!(why(&state, code), expected, "{code:04X}");
        stopped += u16::from(is_cover);
    }
    assert_eq!(stopped, 656);
}

#[test]
fn data_out_of_range_come_before_the_cover_and_the_turn() {
    let (word, kind) = (0x1052, Kind::Cover);
    let rule = Why::DataOutOfRange { word, kind };
    assert_eq!(why(&cover_moving(7), word), rule);
    for received in 0..4 {
        for (kind, _, last) in MIRROR_WORDS {
            let word = last + 1;
            let rule = Why::DataOutOfRange { word, kind };
            assert_eq!(why(&begun(received), word), rule);
        }
    }
}

/// With these busy ticks left the head is busy until the last has passed.
fn assert_busy_ticks(state: &State) {
    let Why::Busy { ticks } = why(state, START) else {
        panic!("the head is idle");
    };
    let before = later(state, ticks - 1);
    assert!(before.busy > 0);
    assert_eq!(why(&before, START), Why::Busy { ticks: 1 });
    assert_eq!(by_the_head(&before, START), 22);
    let after = later(state, ticks);
    assert_eq!((after.task, after.busy), (0, 0));
    assert_eq!(why(&after, START), Why::Taken);
    assert_eq!(by_the_head(&after, START), 0);
}

#[test]
fn busy_ticks_left() {
    for busy in [1, 2, 3, 157, 158, 4237, 4238] {
        assert_busy_ticks(&busy_with(1, busy));
    }
    for busy in 1..=3 {
        assert_busy_ticks(&busy_with(2, busy));
    }
    let mut random = Random::new(71);
    for _ in 0..50 {
        let mut state = random_state(&mut random, true);
        (state.task, state.busy) = (1, random.within(1, 4238));
        assert_busy_ticks(&state);
    }
}

#[test]
fn busy_ticks_left_after_start_and_housekeeping() {
    for (code, length) in [(START, 158), (HK, 3)] {
        let mut head = power_on();
        give(&mut head, code);
        for passed in 0..length {
            let ticks = length - passed;
            assert_eq!(why(&later(&head, passed), NOP), Why::Busy { ticks });
        }
        assert_eq!(why(&later(&head, length), NOP), Why::Taken);
    }
}

/// With these ticks of motion left the cover moves until the last has passed.
fn assert_cover_ticks(state: &State) {
    let Why::CoverMoving { ticks } = why(state, COVER) else {
        panic!("no COVER is refused for the cover's motion");
    };
    let before = later(state, ticks - 1);
    assert!(before.cover_motion > 0);
    assert_eq!(why(&before, COVER), Why::CoverMoving { ticks: 1 });
    assert_eq!(by_the_head(&before, COVER), 22);
    let after = later(state, ticks);
    assert_eq!(after.cover_motion, 0);
    assert_eq!(why(&after, COVER), Why::Taken);
    assert_eq!(by_the_head(&after, COVER), 0);
}

#[test]
fn cover_ticks_left() {
    for ticks in [1, 2, 24, 25, 26, 2024, 2025] {
        assert_cover_ticks(&cover_moving(ticks));
    }
    let mut random = Random::new(72);
    for _ in 0..50 {
        let mut state = random_state(&mut random, false);
        state.cover_motion = random.within(1, 2025);
        assert_cover_ticks(&state);
    }
}

#[test]
fn cover_ticks_left_after_a_cover_move() {
    for steps in 0..=81 {
        let mut head = power_on();
        give(&mut head, 0x1000 + steps);
        let ticks = 25 * steps;
        let expected = match ticks {
            0 => Why::Taken,
            _ => Why::CoverMoving { ticks },
        };
        assert_eq!(why(&head, COVER), expected);
    }
}

#[test]
fn the_cover_moves_on_while_the_head_is_busy() {
    let mut head = cover_moving(100);
    give(&mut head, HK);
    assert_eq!(why(&head, COVER), Why::Busy { ticks: 3 });
    assert_eq!(why(&later(&head, 2), COVER), Why::Busy { ticks: 1 });
    let cover = Why::CoverMoving { ticks: 97 };
    assert_eq!(why(&later(&head, 3), COVER), cover);
    give(&mut head, STOP);
    assert_eq!(why(&head, COVER), Why::CoverMoving { ticks: 100 });
}

#[test]
fn a_flag_of_the_head_tells_the_two_rules_of_22_apart() {
    let mut both = cover_moving(5);
    (both.task, both.busy) = (2, 1);
    for state in [busy_with(1, 9), cover_moving(5), both] {
        let mut head = state;
        let outcome = receive(&mut head, COVER);
        assert_eq!(outcome, Outcome::Ignored(Cause::WrongTime));
        let flags = match why(&state, COVER) {
            Why::Busy { .. } => (1, 1),
            Why::CoverMoving { .. } => (1, 0),
            other => panic!("{other:?}"),
        };
        assert_eq!((head.ir_time_flag, head.vis_time_flag), flags);
    }
}

/// The mirror word that was due, as the answer to one out of turn names it.
fn due_word(state: &State) -> Kind {
    let named = |code| match why(state, code) {
        Why::OutOfTurn { due } => Some(due),
        _ => None,
    };
    let sin_l_or_cos_l = [0xA000, 0xE000];
    let due = sin_l_or_cos_l.into_iter().find_map(named);
    due.expect("one of the two is out of turn")
}

#[test]
fn the_due_mirror_word_is_taken_with_all_its_data() {
    for (received, (kind, first, last)) in MIRROR_WORDS.into_iter().enumerate() {
        let state = begun(received);
        assert_eq!(due_word(&state), kind);
        for code in first..=last {
            assert_eq!(why(&state, code), Why::Taken, "{code:04X}");
            assert_eq!(by_the_head(&state, code), 0, "{code:04X}");
        }
    }
}

#[test]
fn any_other_mirror_word_but_sin_m_is_out_of_turn() {
    for (received, (due, _, _)) in MIRROR_WORDS.into_iter().enumerate() {
        let state = begun(received);
        for (kind, first, last) in MIRROR_WORDS {
            let (rule, number) = match kind == due || kind == Kind::SinM {
                true => (Why::Taken, 0),
                false => (Why::OutOfTurn { due }, 25),
            };
            for code in first..=last {
                assert_eq!(why(&state, code), rule, "{code:04X}");
                assert_eq!(by_the_head(&state, code), number, "{code:04X}");
            }
        }
    }
}

#[test]
fn a_word_out_of_turn_makes_sin_m_due() {
    let mut head = begun(2);
    receive(&mut head, 0xE000);
    let due = Kind::SinM;
    for code in [0xA000, 0x6000, 0xE000] {
        assert_eq!(why(&head, code), Why::OutOfTurn { due });
    }
    assert_eq!(why(&head, 0x2000), Why::Taken);
}

#[test]
fn other_words_leave_the_due_mirror_word() {
    let due = Kind::CosL;
    let mut head = begun(3);
    for code in [NOP, 0x5000, COVER, HK] {
        give(&mut head, code);
    }
    receive(&mut head, 0xA000);
    head = later(&head, 3);
    receive(&mut head, 0x3800);
    assert_eq!(why(&head, 0xA000), Why::OutOfTurn { due });
    assert_eq!(why(&head, 0xE0FF), Why::Taken);
}

/// Power-on with one number changed, by its index.
fn with_number(index: usize, value: u16) -> State {
    let mut numbers = power_on().to_array();
    numbers[index] = value;
    State::from_array(&numbers)
}

/// States out of range: each number at the largest value, some just past their
/// limit, and busy counts that do not go with the task.
fn states_out_of_range() -> Vec<State> {
    let mut states: Vec<State> = (0..35).map(|index| with_number(index, u16::MAX)).collect();
    let past_limits = [(6, 4), (9, 512), (20, 16), (29, 67), (30, 2026)];
    states.extend(past_limits.map(|(index, value)| with_number(index, value)));
    // Too many words of a set, and a place not yet received that is not 0.
    states.extend([with_number(31, 4), with_number(32, 1)]);
    let tasks = [(0, 1), (1, 0), (1, 4239), (2, 0), (2, 4), (3, 1)];
    states.extend(tasks.map(|(task, busy)| busy_with(task, busy)));
    states
}

#[test]
fn a_state_out_of_range_comes_before_all_else() {
    for state in states_out_of_range() {
        assert!(!in_range(&state), "{state:?}");
        for code in [NOP, START, STOP, COVER, 0x3800, 0x1804, 0xC001, 0xE000] {
            assert_eq!(why(&state, code), Why::StateOutOfRange, "{state:?}");
            assert_eq!(by_the_head(&state, code), 21);
        }
    }
}

#[test]
fn a_state_at_its_limits_is_in_range() {
    for (index, value) in [(6, 5), (9, 511), (20, 15), (29, 66), (30, 2025)] {
        let rule = why(&with_number(index, value), START);
        assert_eq!(rule, Why::Taken, "number {index}");
    }
    let busy = Why::Busy { ticks: 4238 };
    assert_eq!(why(&busy_with(1, 4238), START), busy);
}

/// Idle, busy, moving, with a mirror set begun, out of range, and random.
fn many_states() -> Vec<State> {
    let mut states = vec![
        power_on(),
        busy_with(1, 1),
        busy_with(1, 158),
        busy_with(1, 4238),
        busy_with(2, 1),
        busy_with(2, 3),
        cover_moving(1),
        cover_moving(2025),
        with_number(29, 66),
        with_number(29, 67),
        busy_with(1, 4239),
        cover_moving(2026),
    ];
    for received in 0..4 {
        let mut moving = begun(received);
        moving.cover_motion = 25;
        let mut busy = moving;
        (busy.task, busy.busy) = (2, 2);
        states.extend([begun(received), moving, busy]);
    }
    let mut random = Random::new(73);
    states.extend((0..12).map(|index| random_state(&mut random, index % 2 == 0)));
    states
}

/// Bits 8 to 31 that an answer with this number must have.
fn upper_bits(state: &State, code: u16, number: u32) -> u32 {
    let cover_bit = 1 << 23;
    match number {
        22 if state.busy > 0 => state.busy.into(),
        22 => cover_bit + u32::from(state.cover_motion),
        23 | 24 => code.into(),
        25 => 22 + u32::from(state.mirror_set.received),
        _ => 0,
    }
}

#[test]
fn the_rule_is_the_heads_own_for_every_word() {
    let mut counts = [0; 26];
    for state in many_states() {
        for code in 0..=u16::MAX {
            let number = by_the_head(&state, code);
            let packed = (upper_bits(&state, code, number) << 8) | number;
            assert_eq!(answer(&state, code), packed, "{state:?} {code:04X}");
            counts[number as usize] += 1;
        }
    }
    for number in [0, 21, 22, 23, 24, 25] {
        assert!(counts[number] > 0, "{number}");
    }
}

#[test]
fn the_kind_is_that_of_the_identifier() {
    for code in 0..=u16::MAX {
        let word = code;
        let expected = match decode(code) {
            Decoded::OutOfRange { kind } => Why::DataOutOfRange { word, kind },
            Decoded::Unknown => Why::UnknownIdentifier { word },
            Decoded::Allowed { .. } => continue,
        };
        assert_eq!(why(&power_on(), code), expected);
    }
}

#[test]
fn lines() {
    for (packed, expected) in [
        (0, "taken\n"),
        (21, "the state is out of range\n"),
        (
            22 + (158 << 8),
            "the head is busy: 158 ticks left, 1.58 s; only STOP is taken\n",
        ),
        (
            22 + (350 << 8) + (1 << 31),
            "the cover moves: 350 ticks left, 3.50 s; no COVER is taken\n",
        ),
        (
            23 + (0x3800 << 8),
            "no kind has the identifier of word 3800\n",
        ),
        (
            24 + (0xAA00 << 8),
            "the data of word AA00 are out of the range of WIN Y1\n",
        ),
        (25 + (22 << 8), "a mirror word out of turn: SIN M was due\n"),
    ] {
        assert_eq!(line(packed), expected);
    }
}

#[test]
fn ticks_and_seconds() {
    for (ticks, left) in [
        (0, "0 ticks left, 0.00 s"),
        (1, "1 tick left, 0.01 s"),
        (2, "2 ticks left, 0.02 s"),
        (25, "25 ticks left, 0.25 s"),
        (99, "99 ticks left, 0.99 s"),
        (100, "100 ticks left, 1.00 s"),
        (101, "101 ticks left, 1.01 s"),
        (2025, "2025 ticks left, 20.25 s"),
        (4238, "4238 ticks left, 42.38 s"),
        (65535, "65535 ticks left, 655.35 s"),
    ] {
        let busy = format!("the head is busy: {left}; only STOP is taken\n");
        assert_eq!(line(22 + (ticks << 8)), busy);
        let cover = format!("the cover moves: {left}; no COVER is taken\n");
        assert_eq!(line(22 + (ticks << 8) + (1 << 31)), cover);
    }
}

#[test]
fn lines_about_every_word() {
    for word in 0..=u16::MAX {
        let packed = u32::from(word) << 8;
        let unknown = format!("no kind has the identifier of word {word:04X}\n");
        assert_eq!(line(packed + 23), unknown);
        let kind = match decode(word) {
            Decoded::Allowed { kind, .. } | Decoded::OutOfRange { kind } => kind.name(),
            Decoded::Unknown => "unknown",
        };
        let out_of_range = format!("the data of word {word:04X} are out of the range of {kind}\n");
        assert_eq!(line(packed + 24), out_of_range);
    }
}

#[test]
fn lines_about_every_due_word() {
    for (received, name) in ["SIN M", "SIN L", "COS M", "COS L"].into_iter().enumerate() {
        let due = due_word(&begun(received));
        let packed = why_answer(Why::OutOfTurn { due });
        let expected = format!("a mirror word out of turn: {name} was due\n");
        assert_eq!(line(packed), expected);
    }
    for (number, name) in [(0, "NOP"), (14, "WIN X2"), (27, "COVER")] {
        let expected = format!("a mirror word out of turn: {name} was due\n");
        assert_eq!(line(25 + (number << 8)), expected);
    }
    for number in 28..=255 {
        let expected = "a mirror word out of turn: unknown was due\n";
        assert_eq!(line(25 + (number << 8)), expected);
    }
}

#[test]
fn every_answer_is_one_line_of_at_most_256_bytes() {
    let states = [
        power_on(),
        busy_with(1, 4238),
        cover_moving(2025),
        begun(2),
        busy_with(3, 1),
    ];
    for state in states {
        for code in 0..=u16::MAX {
            let line = line(answer(&state, code));
            assert!(line.len() <= 256);
            assert!(line.is_ascii());
            assert_eq!(line.find('\n'), Some(line.len() - 1));
        }
    }
}

#[test]
fn a_bit_that_no_answer_of_its_sort_has() {
    for (packed, bits) in [
        (0, 8..=31),
        (21, 8..=31),
        (0x0000_9E16, 24..=30),
        (0x8000_1916, 24..=30),
        (0x0038_0017, 24..=31),
        (0x00AA_0018, 24..=31),
        (0x0000_1619, 16..=31),
    ] {
        assert!(explanation(packed).is_some());
        for bit in bits {
            let malformed = packed | (1 << bit);
            assert_eq!(explanation(malformed), None, "{malformed:08X}");
        }
    }
}

#[test]
fn a_lowest_byte_that_is_no_number_of_a_rule() {
    for number in (1..21).chain(26..=255) {
        for upper in [0, 0x0000_1600, 0x0038_0000, 0x8000_0100, 0xFFFF_FF00] {
            let malformed = upper | number;
            assert_eq!(explanation(malformed), None, "{malformed:08X}");
        }
    }
}

/// Whether a number has the form of an answer: its lowest byte says which bits
/// above may be set.
fn has_form(why: u32) -> bool {
    let may_be_set = match why & 0xFF {
        0 | 21 => 0,
        22 => 0x80FF_FF00,
        23 | 24 => 0x00FF_FF00,
        25 => 0x0000_FF00,
        _ => return false,
    };
    why & 0xFFFF_FF00 & !may_be_set == 0
}

#[test]
fn a_number_has_a_line_exactly_when_it_has_the_form() {
    let mut random = Random::new(74);
    let mut counts = [0; 2];
    for number in 0..=255 {
        // Few bits, so that many numbers have the form.
        let upper = (0..2000).map(|_| random.next() & random.next() & random.next());
        for upper in upper.map(|bits| bits as u32 & 0xFFFF_FF00) {
            let packed = upper | number;
            let has_line = explanation(packed).is_some();
            assert_eq!(has_line, has_form(packed), "{packed:08X}");
            counts[usize::from(has_line)] += 1;
        }
    }
    assert!(counts.iter().all(|&count| count > 100), "{counts:?}");
}
