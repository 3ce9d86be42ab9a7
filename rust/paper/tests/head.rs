//! The head's response to words and ticks.

mod common;

use common::{random_state, Random};
use paper::{
    decode, in_range, power_on, tick, word, Decoded, ErrorFlags, Kind, MirrorSet, State, Task,
    Ticked,
};

const BOTH_TIME: [u16; 5] = [1, 0, 0, 1, 0];
const IR_TIME: [u16; 5] = [1, 0, 0, 0, 0];
const BOTH_WORD: [u16; 5] = [0, 1, 0, 0, 1];
const IR_WORD: [u16; 5] = [0, 1, 0, 0, 0];
const VIS_WORD: [u16; 5] = [0, 0, 0, 0, 1];
const SCAN: [u16; 5] = [0, 0, 1, 0, 0];

fn flags(state: &State) -> [u16; 5] {
    [22, 23, 24, 25, 26].map(|index| state.to_array()[index])
}

fn give(state: &mut State, words: &[u16]) -> Vec<u16> {
    words.iter().map(|&code| word(state, code)).collect()
}

fn busy_head() -> State {
    let mut head = power_on();
    assert_eq!(word(&mut head, 0x8000), 1);
    head
}

fn set(received: u16, sin_m: u16, sin_l: u16, cos_m: u16) -> MirrorSet {
    MirrorSet {
        received,
        sin_m,
        sin_l,
        cos_m,
    }
}

/// The flags that 24 sets for a kind.
fn flags_for_24(kind: Kind) -> [u16; 5] {
    match kind.index() {
        0..=3 => BOTH_WORD,
        12..=18 => VIS_WORD,
        22..=26 => SCAN,
        _ => IR_WORD,
    }
}

#[test]
fn power_on_is_in_range_and_as_listed() {
    let numbers = [
        0, 0, 2430, 2213, 5, 1, 5, 1, 0, 0, 875, 511, 6, 12, 12, 126, 0, 4095, 1, 0, 9, 8, 0, 0, 0,
        0, 0, 0, 0, 0, 0, 0, 0, 0, 0,
    ];
    assert_eq!(power_on().to_array(), numbers);
    assert_eq!(State::from_array(&numbers), power_on());
    assert!(in_range(&power_on()));
}

#[test]
fn arrays_keep_every_number_in_its_place() {
    let numbers: [u16; 35] = std::array::from_fn(|index| 1000 + index as u16);
    let state = State::from_array(&numbers);
    assert_eq!(state.to_array(), numbers);
    assert_eq!(state.settings.cosine, 1017);
    assert_eq!(state.vis_word_flag, 1026);
    assert_eq!(state.mirror_set, set(1031, 1032, 1033, 1034));
}

#[test]
fn limits_of_single_numbers() {
    const LIMITS: [(usize, u16, u16); 29] = [
        (0, 0, 1),
        (1, 0, 1),
        (2, 0, 4095),
        (3, 0, 4095),
        (4, 0, 1023),
        (5, 0, 1023),
        (6, 5, 1023),
        (7, 0, 1023),
        (8, 0, 1023),
        (9, 0, 511),
        (10, 0, 1023),
        (11, 0, 511),
        (12, 0, 7),
        (13, 0, 31),
        (14, 0, 31),
        (15, 0, 127),
        (16, 0, 8191),
        (17, 0, 4095),
        (18, 0, 1),
        (19, 0, 1),
        (20, 0, 15),
        (21, 0, 15),
        (22, 0, 1),
        (23, 0, 1),
        (24, 0, 1),
        (25, 0, 1),
        (26, 0, 1),
        (29, 0, 66),
        (30, 0, 2025),
    ];
    for (index, least, most) in LIMITS {
        for value in 0..=u16::MAX {
            let mut numbers = power_on().to_array();
            numbers[index] = value;
            let expected = (least..=most).contains(&value);
            assert_eq!(in_range(&State::from_array(&numbers)), expected);
        }
    }
}

#[test]
fn limits_of_task_and_busy() {
    for task in 0..=4 {
        for busy in 0..=u16::MAX {
            let mut state = power_on();
            state.task = task;
            state.busy = busy;
            let expected = match task {
                0 => busy == 0,
                1 => (1..=4238).contains(&busy),
                2 => (1..=3).contains(&busy),
                _ => false,
            };
            assert_eq!(in_range(&state), expected);
        }
    }
}

#[test]
fn limits_of_the_begun_set() {
    let ranged = |received, sin_m, sin_l, cos_m| {
        let mut state = power_on();
        state.mirror_set = set(received, sin_m, sin_l, cos_m);
        in_range(&state)
    };
    assert!(ranged(0, 0, 0, 0));
    assert!(!ranged(0, 1, 0, 0));
    assert!(ranged(1, 31, 0, 0));
    assert!(!ranged(1, 32, 0, 0));
    assert!(!ranged(1, 31, 1, 0));
    assert!(ranged(2, 31, 255, 0));
    assert!(!ranged(2, 31, 256, 0));
    assert!(!ranged(2, 31, 255, 1));
    assert!(ranged(3, 31, 255, 15));
    assert!(!ranged(3, 31, 255, 16));
    assert!(!ranged(4, 0, 0, 0));
    assert!(!ranged(u16::MAX, 0, 0, 0));
}

#[test]
fn a_state_out_of_range_comes_back_as_given() {
    let mut random = Random::new(1);
    for _ in 0..100_000 {
        let numbers: [u16; 35] = std::array::from_fn(|_| random.word());
        let given = State::from_array(&numbers);
        assert!(!in_range(&given));
        let mut state = given;
        assert_eq!(word(&mut state, random.word()), 21);
        assert_eq!(tick(&mut state), Ticked::Refused(21));
        assert_eq!(state, given);
    }
}

#[test]
fn states_in_range_stay_in_range() {
    let mut random = Random::new(2);
    for _ in 0..20_000 {
        let mut state = random_state(&mut random, true);
        assert!(in_range(&state));
        for _ in 0..8 {
            word(&mut state, random.word() & 0xF8FF);
            assert!(in_range(&state));
            tick(&mut state);
            assert!(in_range(&state));
        }
    }
}

#[test]
fn every_word_while_idle() {
    for code in 0..=u16::MAX {
        let mut head = power_on();
        let answer = word(&mut head, code);
        let (expected, raised) = match decode(code) {
            Decoded::Unknown => (23, BOTH_WORD),
            Decoded::OutOfRange { kind } => (24, flags_for_24(kind)),
            Decoded::Allowed { kind, .. } => match kind {
                Kind::SinL | Kind::CosM | Kind::CosL => (25, SCAN),
                Kind::Start => (1, [0; 5]),
                Kind::Hk => (2, [0; 5]),
                Kind::Cover => (code, [0; 5]),
                _ => (0, [0; 5]),
            },
        };
        assert_eq!((answer, flags(&head)), (expected, raised), "{code:04X}");
    }
}

#[test]
fn every_word_while_the_cover_moves() {
    for code in 0..=u16::MAX {
        let mut still = power_on();
        let mut moving = power_on();
        moving.cover_motion = 7;
        let expected = word(&mut still, code);
        let answer = word(&mut moving, code);
        if let Decoded::Allowed {
            kind: Kind::Cover, ..
        } = decode(code)
        {
            assert_eq!((answer, flags(&moving)), (22, IR_TIME));
            assert_eq!(moving.settings, power_on().settings);
            assert_eq!(moving.cover_motion, 7);
        } else {
            assert_eq!((answer, flags(&moving)), (expected, flags(&still)));
        }
    }
}

#[test]
fn every_word_while_busy() {
    for code in 0..=u16::MAX {
        let mut head = busy_head();
        head.cover_motion = 7;
        head.mirror_set = set(2, 1, 2, 0);
        let mut expected = head;
        let answer = word(&mut head, code);
        if code == 0xC000 {
            assert_eq!(answer, 0);
            expected.busy = 0;
            expected.task = 0;
        } else {
            assert_eq!(answer, 22);
            expected.ir_time_flag = 1;
            expected.vis_time_flag = 1;
        }
        assert_eq!(head, expected);
    }
}

#[test]
fn each_setting_word_sets_its_register_alone() {
    const WORDS: [(u16, usize, u16); 16] = [
        (0xD801, 0, 1),
        (0x9001, 1, 1),
        (0xF3FF, 4, 1023),
        (0x0BFE, 5, 1022),
        (0x1805, 6, 5),
        (0x9BFD, 7, 1021),
        (0x2BFC, 8, 1020),
        (0xA9FB, 9, 507),
        (0x6BFA, 10, 1018),
        (0xE9F9, 11, 505),
        (0x5807, 12, 7),
        (0x881E, 13, 30),
        (0xC81D, 14, 29),
        (0x487C, 15, 124),
        (0xD00A, 20, 10),
        (0xB00B, 21, 11),
    ];
    for (code, index, value) in WORDS {
        let mut head = power_on();
        let mut expected = head.to_array();
        expected[index] = value;
        assert_eq!(word(&mut head, code), 0);
        assert_eq!(head.to_array(), expected);
    }
}

#[test]
fn vdetadj_low_word_uses_the_latch() {
    let mut head = power_on();
    assert_eq!(give(&mut head, &[0xB00F, 0x7001, 0x7002]), [0, 0, 0]);
    assert_eq!(head.settings.vdetadj, 0xF02);
    assert_eq!(head.vdetadj_latch, 15);
}

#[test]
fn the_pair_changes_at_the_fourth_word() {
    let mut head = power_on();
    for code in [0x201A, 0xA0BC, 0x600D] {
        assert_eq!(word(&mut head, code), 0);
        assert_eq!(head.settings, power_on().settings);
        assert_eq!(head.mirror_motion, 0);
    }
    assert_eq!(head.mirror_set, set(3, 0x1A, 0xBC, 0x0D));
    assert_eq!(word(&mut head, 0xE0EF), 0);
    assert_eq!(head.settings.sine, 0x1ABC);
    assert_eq!(head.settings.cosine, 0xDEF);
    assert_eq!(head.mirror_motion, 66);
    assert_eq!(head.mirror_set, MirrorSet::default());
}

#[test]
fn other_words_do_not_disturb_a_begun_set() {
    let mut head = power_on();
    let words = [
        0x2001, 0x0000, 0xA002, 0x3800, 0x5002, 0xC001, 0x1052, 0x5000, 0x1001, 0x1001, 0xC000,
        0x6003, 0xD805, 0xE004,
    ];
    let answers = [0, 0, 0, 23, 24, 24, 24, 0, 0x1001, 22, 0, 0, 24, 0];
    assert_eq!(give(&mut head, &words), answers);
    assert_eq!(head.settings.sine, 0x102);
    assert_eq!(head.settings.cosine, 0x304);
}

#[test]
fn a_mirror_word_ignored_while_busy_does_not_disturb_a_begun_set() {
    let mut head = power_on();
    let words = [
        0x2001, 0xA002, 0x8000, 0x2005, 0xE000, 0x2020, 0xC000, 0x6003, 0xE004,
    ];
    let answers = [0, 0, 1, 22, 22, 22, 0, 0, 0];
    assert_eq!(give(&mut head, &words), answers);
    assert_eq!(head.settings.sine, 0x102);
}

#[test]
fn sin_m_begins_afresh_without_error() {
    let mut head = power_on();
    assert_eq!(give(&mut head, &[0x2001, 0xA002, 0x6003, 0x2004]), [0; 4]);
    assert_eq!(head.mirror_set, set(1, 4, 0, 0));
    assert_eq!(flags(&head), [0; 5]);
}

#[test]
fn mirror_words_out_of_turn_drop_the_set() {
    for received in 0..4 {
        for (turn, code) in [(1, 0xA000), (2, 0x6000), (3, 0xE000)] {
            let mut head = power_on();
            give(&mut head, &[0x2001, 0xA002, 0x6003][..received]);
            let answer = word(&mut head, code);
            if received == turn {
                assert_eq!((answer, flags(&head)), (0, [0; 5]));
            } else {
                assert_eq!((answer, flags(&head)), (25, SCAN));
                assert_eq!(head.mirror_set, MirrorSet::default());
            }
        }
    }
}

#[test]
fn mirror_words_out_of_range_drop_the_set() {
    for code in [0x2020, 0xA100, 0x6010, 0xE100] {
        let mut head = power_on();
        give(&mut head, &[0x2001, 0xA002]);
        assert_eq!(word(&mut head, code), 24);
        assert_eq!(flags(&head), SCAN);
        assert_eq!(head.mirror_set, MirrorSet::default());
    }
}

#[test]
fn switching_the_motor() {
    let mut head = power_on();
    assert_eq!(word(&mut head, 0x5000), 0);
    assert_eq!((head.settings.switch, head.mirror_motion), (0, 66));
    tick(&mut head);
    assert_eq!(word(&mut head, 0x5001), 0);
    assert_eq!((head.settings.switch, head.mirror_motion), (1, 65));
    assert_eq!(word(&mut head, 0x5000), 0);
    assert_eq!((head.settings.switch, head.mirror_motion), (0, 66));
}

#[test]
fn moving_the_cover() {
    let mut head = power_on();
    assert_eq!(word(&mut head, 0x1200), 0x1200);
    assert_eq!((head.settings.cover_direction, head.cover_motion), (1, 0));
    assert_eq!(word(&mut head, 0x11D1), 0x11D1);
    assert_eq!(
        (head.settings.cover_direction, head.cover_motion),
        (0, 2025)
    );
    assert_eq!(word(&mut head, 0x1200), 22);
    assert_eq!(head.settings.cover_direction, 0);
    assert_eq!(word(&mut head, 0x1252), 24);
    for _ in 0..2025 {
        tick(&mut head);
    }
    assert_eq!(word(&mut head, 0x1201), 0x1201);
    assert_eq!((head.settings.cover_direction, head.cover_motion), (1, 25));
}

#[test]
fn motion_falls_busy_or_not() {
    let mut head = power_on();
    head.mirror_motion = 1;
    head.cover_motion = 3;
    give(&mut head, &[0x8000]);
    tick(&mut head);
    assert_eq!((head.mirror_motion, head.cover_motion), (0, 2));
    tick(&mut head);
    assert_eq!((head.mirror_motion, head.cover_motion), (0, 1));
    give(&mut head, &[0xC000]);
    tick(&mut head);
    tick(&mut head);
    assert_eq!((head.mirror_motion, head.cover_motion), (0, 0));
}

#[test]
fn blocks_are_due_when_an_acquisition_ends() {
    let mut head = power_on();
    give(&mut head, &[0x1804, 0x8000, 0x0000]);
    for _ in 1..158 {
        assert_eq!(tick(&mut head), Ticked::NothingDue);
    }
    assert_eq!(head.busy, 1);
    let flags_shown = ErrorFlags {
        ir_time: true,
        ir_word: false,
        ir_scan: false,
        vis_time: true,
        vis_word: true,
    };
    let due = Ticked::BlocksDue {
        task: Task::Acquisition,
        flags: flags_shown,
    };
    assert_eq!(tick(&mut head), due);
    assert_eq!(head, power_on());
    assert_eq!(tick(&mut head), Ticked::NothingDue);
}

#[test]
fn stop_gives_no_blocks_and_keeps_flags() {
    let mut head = busy_head();
    assert_eq!(give(&mut head, &[0x0000, 0xC000]), [22, 0]);
    assert_eq!((head.busy, head.task), (0, 0));
    assert_eq!(flags(&head), BOTH_TIME);
    assert_eq!(tick(&mut head), Ticked::NothingDue);
    assert_eq!(flags(&head), BOTH_TIME);
    let before = head;
    assert_eq!(word(&mut head, 0xC000), 0);
    assert_eq!(head, before);
}
