//! Document 01's plans through the wrapper.

use shabgozim::{schedule, translate, PlanRefusal, Schedule, State, Translation};

const PLAN: [u8; 13] = [
    0x01, 0x00, 0x0A, 0x05, 0x0C, 0xFF, 0x00, 0x0F, 0xF8, 0x01, 0x0F, 0x01, 0x10,
];

#[test]
fn the_example_plan() {
    let expected = Schedule {
        words: vec![
            (0, 0x2011),
            (1, 0xA000),
            (2, 0x600F),
            (3, 0xE0F8),
            (69, 0x8000),
            (227, 0x4000),
        ],
        end: 230,
    };
    assert_eq!(schedule(&State::power_on(), &PLAN), Ok(expected));
}

#[test]
fn the_empty_plan_needs_no_buffers() {
    let done = translate(&State::power_on(), &[1, 0, 0], &mut [], &mut []);
    assert_eq!(done, Ok(Translation { count: 0, end: 0 }));
}

#[test]
fn a_refusal_has_number_and_place() {
    let plan = [1, 0, 5, 1, 0x0F, 2, 7, 2];
    let refusal = PlanRefusal {
        number: 8,
        place: 5,
        count: 0,
    };
    assert_eq!(schedule(&State::power_on(), &plan), Err(refusal));
}

#[test]
fn short_buffers_are_told_the_count() {
    let mut words = [0xAAAA; 5];
    let mut ticks = [77; 6];
    let done = translate(&State::power_on(), &PLAN, &mut words, &mut ticks);
    let refusal = PlanRefusal {
        number: 10,
        place: 0,
        count: 6,
    };
    assert_eq!(done, Err(refusal));
    assert_eq!(words, [0xAAAA; 5]);
    assert_eq!(ticks, [77; 6]);
}
