//! Lists of timed words through the wrapper.

use shabgozim::{place, raw, schedule, Act, Cause, CoverMove, ListRefusal, Outcome, State};

const PLAN: [u8; 13] = [
    0x01, 0x00, 0x0A, 0x05, 0x0C, 0xFF, 0x00, 0x0F, 0xF8, 0x01, 0x0F, 0x01, 0x10,
];

const TAKEN: Outcome = Outcome::Taken(Act::None);
const EXPOSURE: Outcome = Outcome::Taken(Act::Exposure);
const HOUSEKEEPING: Outcome = Outcome::Taken(Act::Housekeeping);

/// The timed words of the example plan.
fn example() -> Vec<(u32, u16)> {
    schedule(&State::power_on(), &PLAN).unwrap().words
}

/// So many words NOP at neighbouring ticks.
fn nops(count: u32) -> Vec<(u32, u16)> {
    (0..count).map(|tick| (tick, 0)).collect()
}

fn refused(given: State, timed: &[(u32, u16)]) -> ListRefusal {
    let mut head = given;
    let refusal = head.list(timed).unwrap_err();
    assert_eq!(head, given);
    refusal
}

#[test]
fn the_example_plan_in_one_call() {
    let mut head = State::power_on();
    let expected = vec![TAKEN, TAKEN, TAKEN, TAKEN, EXPOSURE, HOUSEKEEPING];
    assert_eq!(head.list(&example()), Ok(expected));
    assert_eq!(head.numbers[place::SINE], 0x1100);
    assert_eq!(head.numbers[place::COSINE], 0x0FF8);
    // The request keeps the head busy 3 ticks, and its own has passed.
    assert_eq!(head.numbers[place::BUSY], 2);
    assert!(head.is_at_rest());
}

#[test]
fn a_list_is_as_single_words_and_ticks() {
    let timed = example();
    let mut head = State::power_on();
    let outcomes = head.list(&timed).unwrap();
    let mut singly = State::power_on();
    let mut words = timed.iter().zip(outcomes).peekable();
    for now in 0..=timed[timed.len() - 1].0 {
        if let Some((&(_, word), outcome)) = words.next_if(|((tick, _), _)| *tick == now) {
            assert_eq!(singly.word(word), outcome);
        }
        singly.tick();
    }
    assert_eq!(head, singly);
}

#[test]
fn start_is_taken_without_the_fourth_mirror_word() {
    let mut timed = example();
    timed.remove(3);
    let mut head = State::power_on();
    let expected = vec![TAKEN, TAKEN, TAKEN, EXPOSURE, HOUSEKEEPING];
    assert_eq!(head.list(&timed), Ok(expected));
    assert_eq!(head.settings(), State::power_on().settings());
    assert_eq!(head.error_flags(), State::power_on().error_flags());
    assert_eq!(head.numbers[place::SET_WORDS], 3);
}

#[test]
fn an_ignored_word_does_not_stop_the_rest() {
    let timed = [(7, 0x1201), (8, 0x1201), (9, 0x3800), (32, 0x12D1)];
    let cover = |sensors, steps| CoverMove {
        opens: true,
        wave: false,
        sensors,
        steps,
    };
    let expected = vec![
        Outcome::Taken(Act::Cover(cover(false, 1))),
        Outcome::Ignored(Cause::WrongTime),
        Outcome::Ignored(Cause::UnknownIdentifier),
        Outcome::Taken(Act::Cover(cover(true, 81))),
    ];
    let mut head = State::power_on();
    assert_eq!(head.list(&timed), Ok(expected));
    assert_eq!(head.numbers[place::COVER_MOTION], 2024);
}

#[test]
fn an_empty_list_changes_nothing() {
    let mut head = State::power_on();
    head.word(0x8000);
    let given = head;
    assert_eq!(head.list(&[]), Ok(Vec::new()));
    assert_eq!(head, given);
}

#[test]
fn the_longest_gap() {
    let mut head = State::power_on();
    let outcomes = head.list(&[(0, 0x8000), (u32::MAX, 0x8000)]);
    assert_eq!(outcomes, Ok(vec![EXPOSURE, EXPOSURE]));
    assert_eq!(head.numbers[place::BUSY], 157);
}

#[test]
fn up_to_256_words() {
    let mut head = State::power_on();
    assert_eq!(head.list(&nops(256)), Ok(vec![TAKEN; 256]));
    assert_eq!(refused(head, &nops(257)), ListRefusal::NoList);
}

#[test]
fn refusals_have_numbers() {
    let mut out_of_range = State::power_on();
    out_of_range.numbers[place::TASK] = 3;
    let equal = [(4, 0), (4, 0)];
    let falling = [(4, 0), (5, 0), (3, 0)];
    assert_eq!(refused(State::power_on(), &equal).number(), 31);
    assert_eq!(refused(State::power_on(), &falling).number(), 31);
    for timed in [&nops(0)[..], &nops(1), &nops(257), &equal] {
        assert_eq!(refused(out_of_range, timed).number(), 21);
    }
}

#[test]
fn slices_of_any_length() {
    let mut numbers = State::power_on().numbers;
    let mut outcomes = [0xAAAA; 3];
    assert_eq!(raw::list(&mut numbers, &[0, 0], &[0], &mut outcomes), 31);
    assert_eq!(raw::list(&mut numbers, &[0], &[0, 1], &mut outcomes), 31);
    let short = &mut outcomes[..1];
    assert_eq!(raw::list(&mut numbers, &[0, 0], &[0, 1], short), 31);
    assert_eq!(raw::list(&mut numbers[..34], &[], &[], &mut []), 21);
    assert_eq!(outcomes, [0xAAAA; 3]);
    let words = [0x8000, 0x0000];
    assert_eq!(raw::list(&mut numbers, &words, &[0, 1], &mut outcomes), 0);
    assert_eq!(outcomes, [1, 22, 0xAAAA]);
}
