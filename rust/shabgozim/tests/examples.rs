//! Document 01's examples through the wrapper.

use shabgozim::{
    decode, decode_by_byte, encode, kind, place, Act, Cause, CoverMove, Decoded, ErrorFlags,
    Outcome, State, Task, Ticked,
};

const TAKEN: Outcome = Outcome::Taken(Act::None);

fn from_power_on(word: u16) -> Outcome {
    State::power_on().word(word)
}

#[test]
fn power_on_is_as_listed() {
    let numbers = [
        0, 0, 2430, 2213, 5, 1, 5, 1, 0, 0, 875, 511, 6, 12, 12, 126, 0, 4095, 1, 0, 9, 8, 0, 0, 0,
        0, 0, 0, 0, 0, 0, 0, 0, 0, 0,
    ];
    assert_eq!(State::power_on().numbers, numbers);
    assert!(State::power_on().in_range());
}

#[test]
fn vdetcom_changes_at_its_second_word() {
    let mut head = State::power_on();
    assert_eq!(head.word(0xD009), TAKEN);
    assert_eq!(head.numbers[place::VDETCOM], 2430);
    assert_eq!(head.word(0x3088), TAKEN);
    assert_eq!(head.numbers[place::VDETCOM], 2440);
}

#[test]
fn single_words() {
    let out_of_range = Outcome::Ignored(Cause::DataOutOfRange);
    assert_eq!(from_power_on(0x1804), out_of_range);
    assert_eq!(from_power_on(0x1805), TAKEN);
    assert_eq!(from_power_on(0x1052), out_of_range);
    assert_eq!(from_power_on(0xA9FF), TAKEN);
    assert_eq!(from_power_on(0xAA00), out_of_range);
    let unknown = Outcome::Ignored(Cause::UnknownIdentifier);
    assert_eq!(from_power_on(0x3800), unknown);
    assert_eq!(from_power_on(0xC001), out_of_range);
    let out_of_turn = Outcome::Ignored(Cause::OutOfTurn);
    assert_eq!(from_power_on(0xA000), out_of_turn);
}

#[test]
fn a_cover_move_has_its_fields() {
    let cover = CoverMove {
        opens: false,
        wave: false,
        sensors: false,
        steps: 81,
    };
    assert_eq!(from_power_on(0x1051), Outcome::Taken(Act::Cover(cover)));
    let cover = CoverMove {
        opens: true,
        wave: false,
        sensors: true,
        steps: 0,
    };
    assert_eq!(from_power_on(0x1280), Outcome::Taken(Act::Cover(cover)));
}

#[test]
fn an_acquisition_shows_the_flags_and_clears_them() {
    let mut head = State::power_on();
    assert_eq!(head.word(0x8000), Outcome::Taken(Act::Exposure));
    assert_eq!(head.numbers[place::BUSY], 158);
    assert_eq!(head.word(0xC001), Outcome::Ignored(Cause::WrongTime));
    for _ in 0..157 {
        assert_eq!(head.tick(), Ticked::NothingDue);
    }
    assert!(head.is_busy());
    let flags = ErrorFlags {
        ir_time: true,
        vis_time: true,
        ..ErrorFlags::default()
    };
    assert_eq!(head.error_flags(), flags);
    let ended = Task::Acquisition;
    assert_eq!(head.tick(), Ticked::BlocksDue { ended, flags });
    assert_eq!(head, State::power_on());
}

#[test]
fn a_state_out_of_range_is_refused() {
    let mut head = State::power_on();
    head.numbers[place::CCD_DELAY] = 4;
    let given = head;
    assert!(!head.in_range());
    assert_eq!(head.word(0), Outcome::Ignored(Cause::StateOutOfRange));
    assert_eq!(head.tick(), Ticked::Refused);
    assert_eq!(head, given);
    assert_eq!(Cause::StateOutOfRange.number(), 21);
}

#[test]
fn words_have_kinds_and_data() {
    let minus_zero = Decoded::Word {
        kind: kind::SIN_M,
        data: 0x10,
    };
    assert_eq!(decode(0x2010), minus_zero);
    assert_eq!(decode(0x3800), Decoded::Unknown);
    let kind = kind::CCD_DELAY;
    assert_eq!(decode(0x1804), Decoded::OutOfRange { kind });
    for word in [0x2010, 0x3800, 0x1804, 0xC001] {
        assert_eq!(decode_by_byte(word), decode(word));
    }
    assert_eq!(encode(kind, 5), Some(0x1805));
    assert_eq!(encode(kind, 4), None);
    assert_eq!(encode(kind::COUNT, 0), None);
}
