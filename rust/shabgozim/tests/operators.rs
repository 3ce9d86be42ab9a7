//! Two operators and one head through the wrapper.

use shabgozim::{
    decode, kind, place, raw, read_list, Act, Cause, CoverMove, Decoded, ErrorFlags, Group,
    Operator, Outcome, Passing, State, REFUSAL_LENGTH,
};

const TAKEN: Passing = Passing::Passed(Outcome::Taken(Act::None));
const OPERATORS: [Operator; 2] = [Operator::Ccd, Operator::Infrared];

const CCD_KINDS: [u8; 7] = [
    kind::WIN_X1,
    kind::WIN_Y1,
    kind::WIN_X2,
    kind::WIN_Y2,
    kind::CCD_DELAY,
    kind::CCD_EXPO,
    kind::CCD_LAMP,
];
const CONTROLLER_KINDS: [u8; 4] = [kind::START, kind::HK, kind::STOP, kind::NOP];

/// The stored lists of the two operators.
const CCD_LIST: &[u8] = include_bytes!("../../../examples/lists/merge/ccd.list");
const INFRARED_LIST: &[u8] = include_bytes!("../../../examples/lists/merge/infrared.list");
/// When the controller gives START between their words, and when all is over.
const STORED_START: u32 = 80;
const STORED_END: u32 = 770;

const START: u16 = 0x8000;
const HK: u16 = 0x4000;
const STOP: u16 = 0xC000;
const NOP: u16 = 0x0000;
const CCD_EXPO_50: u16 = 0x9832;
const IR_EXPO_200: u16 = 0x08C8;
const MIRROR: [u16; 4] = [0x2011, 0xA000, 0x600F, 0xE0F8];
/// The cover opens by one step.
const COVER: u16 = 0x1201;
const NOT_PASSED: &str = "refused 51: the word is not passed on: not allowed, \
                          not in the operator's group, or the head is busy";

/// The group that document 02 gives a kind.
fn expected_group(kind: u8) -> Group {
    if CCD_KINDS.contains(&kind) {
        Group::Ccd
    } else if CONTROLLER_KINDS.contains(&kind) {
        Group::Controller
    } else {
        Group::Infrared
    }
}

/// Whether the word is allowed and in the operator's group.
fn may_give(operator: Operator, word: u16) -> bool {
    match decode(word) {
        Decoded::Word { kind, .. } => expected_group(kind) == operator.group(),
        Decoded::Unknown | Decoded::OutOfRange { .. } => false,
    }
}

/// Sees that neither operator's word reaches the head, whatever it is.
fn passes_nothing(given: State, word: u16, answer: Passing) {
    for operator in OPERATORS {
        let mut head = given;
        assert_eq!(head.pass_on(operator, word), answer, "{word:04X}");
        assert_eq!(head, given, "{word:04X}");
    }
}

#[test]
fn every_kind_has_its_group() {
    for kind in 0..kind::COUNT {
        assert_eq!(Group::of_kind(kind), Some(expected_group(kind)), "{kind}");
    }
    for number in kind::COUNT..=u8::MAX {
        assert_eq!(Group::of_kind(number), None, "{number}");
        assert_eq!(raw::group(number), 3, "{number}");
    }
}

#[test]
fn groups_have_numbers() {
    assert_eq!(raw::group(kind::WIN_X1), Group::Ccd as u32);
    assert_eq!(raw::group(kind::COVER), Group::Infrared as u32);
    assert_eq!(raw::group(kind::START), Group::Controller as u32);
    assert_eq!(Operator::Ccd.group(), Group::Ccd);
    assert_eq!(Operator::Infrared.group(), Group::Infrared);
}

#[test]
fn every_word_of_either_operator() {
    let given = State::power_on();
    for word in 0..=u16::MAX {
        for operator in OPERATORS {
            let (mut passed, mut direct) = (given, given);
            let passing = passed.pass_on(operator, word);
            match may_give(operator, word) {
                true => assert_eq!(passing, Passing::Passed(direct.word(word)), "{word:04X}"),
                false => assert_eq!(passing, Passing::NotPassed, "{word:04X}"),
            }
            assert_eq!(passed, direct, "{word:04X}");
        }
    }
}

#[test]
fn a_word_passed_on_changes_the_state() {
    let mut head = State::power_on();
    assert_eq!(head.pass_on(Operator::Ccd, CCD_EXPO_50), TAKEN);
    assert_eq!(head.pass_on(Operator::Infrared, IR_EXPO_200), TAKEN);
    let mut expected = State::power_on();
    expected.numbers[place::CCD_EXPO] = 50;
    expected.numbers[place::IR_EXPO] = 200;
    assert_eq!(head, expected);
    for word in MIRROR {
        assert_eq!(head.pass_on(Operator::Infrared, word), TAKEN);
    }
    assert_eq!(head.numbers[place::SINE], 0x1100);
    assert!(!head.is_at_rest());
}

#[test]
fn the_stored_lists_are_passed_on() {
    let lists = [CCD_LIST, INFRARED_LIST].map(|text| read_list(text).unwrap());
    let mut head = State::power_on();
    let mut passed = 0;
    for now in 0..STORED_END {
        for (operator, list) in OPERATORS.into_iter().zip(&lists) {
            if let Ok(place) = list.ticks.binary_search(&now) {
                assert_eq!(head.pass_on(operator, list.words[place]), TAKEN, "{now}");
                passed += 1;
            }
        }
        if now == STORED_START {
            assert!(head.is_at_rest());
            assert_eq!(head.word(START), Outcome::Taken(Act::Exposure));
        }
        head.tick();
    }
    assert_eq!(passed, 15);
    assert!(head.is_at_rest() && !head.is_busy());
}

#[test]
fn words_of_the_wrong_group() {
    let given = State::power_on();
    for (operator, word) in [
        (Operator::Infrared, CCD_EXPO_50),
        (Operator::Ccd, IR_EXPO_200),
        (Operator::Ccd, MIRROR[0]),
        (Operator::Ccd, COVER),
    ] {
        let mut head = given;
        assert_eq!(head.pass_on(operator, word), Passing::NotPassed);
        assert_eq!(head, given, "{word:04X}");
    }
    for word in [START, HK, STOP, NOP] {
        passes_nothing(given, word, Passing::NotPassed);
    }
}

#[test]
fn words_that_are_not_allowed() {
    // An unknown identifier, CCD DELAY and COVER out of range. No flag is raised.
    for word in [0x3800, 0x1804, 0x1052] {
        passes_nothing(State::power_on(), word, Passing::NotPassed);
    }
}

#[test]
fn nothing_is_passed_on_while_the_head_is_busy() {
    for task in [START, HK] {
        let mut head = State::power_on();
        head.word(task);
        while head.is_busy() {
            for word in [CCD_EXPO_50, IR_EXPO_200, MIRROR[0], COVER, STOP, 0x3800] {
                passes_nothing(head, word, Passing::NotPassed);
            }
            assert_eq!(head.error_flags(), ErrorFlags::default());
            head.tick();
        }
        assert_eq!(head.pass_on(Operator::Ccd, CCD_EXPO_50), TAKEN);
        assert_eq!(head.pass_on(Operator::Infrared, IR_EXPO_200), TAKEN);
    }
}

#[test]
fn a_cover_word_while_the_cover_moves_is_passed_on_and_ignored() {
    let mut head = State::power_on();
    let cover = CoverMove {
        opens: true,
        wave: false,
        sensors: false,
        steps: 1,
    };
    let moved = Passing::Passed(Outcome::Taken(Act::Cover(cover)));
    assert_eq!(head.pass_on(Operator::Infrared, COVER), moved);
    let mut direct = head;
    let ignored = Passing::Passed(Outcome::Ignored(Cause::WrongTime));
    assert_eq!(head.pass_on(Operator::Infrared, COVER), ignored);
    direct.word(COVER);
    assert_eq!(head, direct);
    assert!(head.error_flags() != ErrorFlags::default());
    // A moving head is not busy: other words pass.
    assert_eq!(head.pass_on(Operator::Ccd, CCD_EXPO_50), TAKEN);
    let mut numbers = head.numbers;
    assert_eq!(raw::pass_on(&mut numbers, 1, COVER), 22);
}

#[test]
fn a_mirror_word_out_of_turn_is_passed_on_and_ignored() {
    let mut head = State::power_on();
    assert_eq!(head.pass_on(Operator::Infrared, MIRROR[0]), TAKEN);
    let ignored = Passing::Passed(Outcome::Ignored(Cause::OutOfTurn));
    assert_eq!(head.pass_on(Operator::Infrared, MIRROR[2]), ignored);
    assert_eq!(head.numbers[place::SET_WORDS], 0);
    assert!(head.error_flags().ir_scan);
    // A word of the CCD operator leaves a begun set.
    head.pass_on(Operator::Infrared, MIRROR[0]);
    assert_eq!(head.pass_on(Operator::Ccd, CCD_EXPO_50), TAKEN);
    assert_eq!(head.numbers[place::SET_WORDS], 1);
    let mut numbers = State::power_on().numbers;
    assert_eq!(raw::pass_on(&mut numbers, 1, MIRROR[3]), 25);
}

#[test]
fn a_state_out_of_range_comes_first() {
    let mut given = State::power_on();
    given.numbers[place::CCD_DELAY] = 4;
    for word in [CCD_EXPO_50, IR_EXPO_200, START, 0x3800] {
        passes_nothing(given, word, Passing::StateOutOfRange);
    }
    // Also where the head would be busy.
    given.numbers[place::TASK] = 1;
    given.numbers[place::BUSY] = 4239;
    passes_nothing(given, CCD_EXPO_50, Passing::StateOutOfRange);
}

#[test]
fn slices_of_any_length_and_any_group() {
    let power_on = State::power_on().numbers;
    let mut numbers = [power_on.to_vec(), vec![0; 1]].concat();
    let given = numbers.clone();
    for length in [0, 1, 34, 36] {
        for group in [0, 1, 2, u8::MAX] {
            let answer = raw::pass_on(&mut numbers[..length], group, CCD_EXPO_50);
            assert_eq!(answer, 21, "{length} numbers");
        }
    }
    // No operator has another group, nor has the controller's words.
    for group in 2..=u8::MAX {
        for word in [CCD_EXPO_50, IR_EXPO_200, START, NOP] {
            assert_eq!(raw::pass_on(&mut numbers[..35], group, word), 51);
        }
    }
    assert_eq!(numbers, given);
    assert_eq!(raw::pass_on(&mut numbers[..35], 0, CCD_EXPO_50), 0);
    assert_eq!(raw::pass_on(&mut numbers[..35], 1, COVER), COVER.into());
    assert_eq!(numbers[35], given[35]);
}

#[test]
fn answers_have_numbers_and_words() {
    assert_eq!((TAKEN.number(), TAKEN.is_passed()), (0, true));
    assert_eq!(TAKEN.in_words(), "");
    let refused = Passing::NotPassed;
    assert_eq!((refused.number(), refused.is_passed()), (51, false));
    assert_eq!(refused.in_words(), NOT_PASSED);
    let refused = Passing::StateOutOfRange;
    assert_eq!((refused.number(), refused.is_passed()), (21, false));
    assert_eq!(refused.in_words(), "");
}

#[test]
fn a_refusal_wants_its_room() {
    let mut text = [0xAA; REFUSAL_LENGTH];
    let words = format!("{NOT_PASSED}\n");
    for short in [0, 1, words.len() - 1] {
        assert_eq!(raw::operator_refusal(51, &mut text[..short]), 0);
    }
    for number in (0..=u8::MAX).filter(|number| !(51..=54).contains(number)) {
        assert_eq!(raw::operator_refusal(number, &mut text), 0, "{number}");
    }
    assert_eq!(text, [0xAA; REFUSAL_LENGTH]);
    let length = raw::operator_refusal(51, &mut text[..words.len()]) as usize;
    assert_eq!(&text[..length], words.as_bytes());
    assert!(text[length..].iter().all(|&byte| byte == 0xAA));
}
