//! Every refusal number and place of the plan table.

mod common;

use common::{plan_of, plan_with_body, wide_order, Random};
use paper::{power_on, read_plan, translate, Refusal, State, Translation};

/// Translates into large buffers and sees that a refusal writes nothing.
fn refusal_for(state: &State, plan: &[u8]) -> Option<(u16, usize)> {
    let mut words = [0xAAAA; 300];
    let mut ticks = [0xBBBB_BBBB; 300];
    let refusal = translate(state, plan, &mut words, &mut ticks).err()?;
    assert!(words.iter().all(|&word| word == 0xAAAA));
    assert!(ticks.iter().all(|&tick| tick == 0xBBBB_BBBB));
    assert_eq!(refusal.count, None);
    assert_eq!(read_plan(state, plan), Err(refusal));
    Some((refusal.number, refusal.place))
}

fn refusal(plan: &[u8]) -> Option<(u16, usize)> {
    refusal_for(&power_on(), plan)
}

/// The refusal of a plan with this order after one exposure.
fn second_order(order: &[u8]) -> Option<(u16, usize)> {
    refusal(&plan_of(&[vec![15], order.to_vec()]))
}

fn second_wide_order(code: u8, fields: &[u16]) -> Option<(u16, usize)> {
    second_order(&wide_order(code, fields))
}

const ACCEPTED: Option<(u16, usize)> = None;
const FIELD: Option<(u16, usize)> = Some((8, 5));

#[test]
fn number_1_state() {
    let ready = power_on().to_array();
    for (index, value) in [(0, 2), (27, 1), (28, 1), (29, 31), (6, 4), (31, 4)] {
        let mut numbers = ready;
        numbers[index] = value;
        assert_eq!(refusal_for(&State::from_array(&numbers), &[]), Some((1, 0)));
    }
    for (task, busy) in [(1, 4238), (1, 1), (2, 3)] {
        let mut numbers = ready;
        numbers[27] = task;
        numbers[28] = busy;
        assert_eq!(
            refusal_for(&State::from_array(&numbers), &[1, 0, 0]),
            Some((1, 0))
        );
    }
    for index in [29, 30] {
        let mut numbers = ready;
        numbers[index] = 1;
        assert_eq!(
            refusal_for(&State::from_array(&numbers), &[1, 0, 0]),
            Some((1, 0))
        );
    }
}

#[test]
fn numbers_2_to_4() {
    assert_eq!(refusal(&[]), Some((2, 0)));
    assert_eq!(refusal(&[9]), Some((2, 0)));
    assert_eq!(refusal(&[1, 0]), Some((2, 0)));
    assert_eq!(refusal(&[0, 0, 0]), Some((3, 0)));
    assert_eq!(refusal(&[2, 0, 9]), Some((3, 0)));
    assert_eq!(refusal(&[1, 0, 1]), Some((4, 0)));
    assert_eq!(refusal(&[1, 0, 0, 1]), Some((4, 0)));
    assert_eq!(refusal(&[1, 1, 0, 1, 15]), Some((4, 0)));
    assert_eq!(refusal(&[1, 0, 2, 1, 15]), ACCEPTED);
}

#[test]
fn number_4_when_more_than_the_length_can_say() {
    let mut plan = vec![0; 3 + 65536];
    plan[0] = 1;
    assert_eq!(refusal(&plan), Some((4, 0)));
}

#[test]
fn number_5_length_zero_or_past_the_end() {
    assert_eq!(refusal(&plan_with_body(&[0])), Some((5, 3)));
    assert_eq!(refusal(&plan_with_body(&[1])), Some((5, 3)));
    assert_eq!(refusal(&plan_with_body(&[1, 15, 0])), Some((5, 5)));
    assert_eq!(refusal(&plan_with_body(&[1, 15, 2, 15])), Some((5, 5)));
    assert_eq!(refusal(&plan_with_body(&[2, 99])), Some((5, 3)));
    assert_eq!(refusal(&plan_with_body(&[255, 1, 2, 3])), Some((5, 3)));
}

#[test]
fn number_6_code() {
    for code in (0..=255u8).filter(|code| !(1..=17).contains(code)) {
        assert_eq!(second_order(&[code]), Some((6, 5)));
        assert_eq!(second_order(&[code, 1, 2, 3]), Some((6, 5)));
    }
}

#[test]
fn number_7_length_of_the_code() {
    const LENGTHS: [usize; 17] = [3, 3, 5, 5, 2, 9, 2, 3, 3, 3, 3, 5, 2, 5, 1, 1, 3];
    for (code, right) in (1u8..).zip(LENGTHS) {
        for length in (1..=255).filter(|&length| length != right) {
            let mut order = vec![0xFF; length];
            order[0] = code;
            assert_eq!(second_order(&order), Some((7, 5)));
        }
    }
}

#[test]
fn number_8_biases_and_times() {
    for code in [1, 2] {
        assert_eq!(second_wide_order(code, &[4095]), ACCEPTED);
        assert_eq!(second_wide_order(code, &[4096]), FIELD);
    }
    assert_eq!(second_wide_order(3, &[0, 0]), ACCEPTED);
    assert_eq!(second_wide_order(3, &[1023, 1023]), ACCEPTED);
    assert_eq!(second_wide_order(3, &[1024, 0]), FIELD);
    assert_eq!(second_wide_order(3, &[0, 1024]), FIELD);
    assert_eq!(second_wide_order(4, &[5, 0]), ACCEPTED);
    assert_eq!(second_wide_order(4, &[1023, 1023]), ACCEPTED);
    assert_eq!(second_wide_order(4, &[4, 0]), FIELD);
    assert_eq!(second_wide_order(4, &[1024, 0]), FIELD);
    assert_eq!(second_wide_order(4, &[5, 1024]), FIELD);
}

#[test]
fn number_8_window() {
    assert_eq!(second_wide_order(6, &[0, 0, 875, 511]), ACCEPTED);
    assert_eq!(second_wide_order(6, &[148, 0, 1023, 511]), ACCEPTED);
    assert_eq!(second_wide_order(6, &[149, 0, 1024, 511]), FIELD);
    assert_eq!(second_wide_order(6, &[72, 0, 946, 511]), FIELD);
    assert_eq!(second_wide_order(6, &[72, 1, 947, 511]), FIELD);
    assert_eq!(second_wide_order(6, &[72, 0, 947, 510]), FIELD);
    assert_eq!(second_wide_order(6, &[0xFFFF, 0, 874, 511]), FIELD);
}

#[test]
fn number_8_one_byte_fields() {
    for code in [5, 7, 13] {
        assert_eq!(second_order(&[code, 0]), ACCEPTED);
        assert_eq!(second_order(&[code, 1]), ACCEPTED);
        assert_eq!(second_order(&[code, 2]), FIELD);
        assert_eq!(second_order(&[code, 255]), FIELD);
    }
    for (code, most) in [(8, 3), (9, 15), (10, 15), (11, 63)] {
        assert_eq!(second_order(&[code, 1, most]), ACCEPTED);
        assert_eq!(second_order(&[code, 1, most + 1]), FIELD);
        assert_eq!(second_order(&[code, 2, 0]), FIELD);
    }
}

#[test]
fn number_8_mirror_and_cover() {
    assert_eq!(second_wide_order(12, &[4095, 4095]), ACCEPTED);
    assert_eq!(second_wide_order(12, &[-4095i16 as u16, 0]), ACCEPTED);
    assert_eq!(second_wide_order(12, &[4096, 0]), FIELD);
    assert_eq!(second_wide_order(12, &[-4096i16 as u16, 0]), FIELD);
    assert_eq!(second_wide_order(12, &[i16::MIN as u16, 0]), FIELD);
    assert_eq!(second_wide_order(12, &[0, 4096]), FIELD);
    assert_eq!(second_order(&[14, 1, 1, 1, 81]), ACCEPTED);
    assert_eq!(second_order(&[14, 0, 0, 0, 82]), FIELD);
    assert_eq!(second_order(&[14, 2, 0, 0, 0]), FIELD);
    assert_eq!(second_order(&[14, 0, 2, 0, 0]), FIELD);
    assert_eq!(second_order(&[14, 0, 0, 2, 0]), FIELD);
}

#[test]
fn number_9_a_65th_order() {
    let full = [1, 15].repeat(64);
    assert_eq!(refusal(&plan_with_body(&full)), ACCEPTED);
    for extra in [[0].as_slice(), &[1, 15], &[9, 9], &[2, 99, 0], &[255]] {
        let body = [full.as_slice(), extra].concat();
        assert_eq!(refusal(&plan_with_body(&body)), Some((9, 3 + 128)));
    }
}

#[test]
fn the_first_faulty_order_decides() {
    let mut orders = vec![vec![15]; 70];
    assert_eq!(refusal(&plan_of(&orders)), Some((9, 3 + 2 * 64)));
    orders[63] = vec![5, 7];
    assert_eq!(refusal(&plan_of(&orders)), Some((8, 3 + 2 * 63)));
    orders[10] = vec![99];
    assert_eq!(refusal(&plan_of(&orders)), Some((6, 3 + 2 * 10)));
    orders[9] = vec![16, 0];
    assert_eq!(refusal(&plan_of(&orders)), Some((7, 3 + 2 * 9)));
}

#[test]
fn number_10_buffers() {
    let plan = plan_of(&[wide_order(12, &[1, 2]), vec![15], wide_order(17, &[9])]);
    let short = Refusal {
        number: 10,
        place: 0,
        count: Some(5),
    };
    for (many_words, many_ticks) in [(0, 0), (4, 5), (5, 4), (4, 300), (300, 4)] {
        let mut words = vec![0xAAAA; many_words];
        let mut ticks = vec![77; many_ticks];
        let answer = translate(&power_on(), &plan, &mut words, &mut ticks);
        assert_eq!(answer, Err(short));
        assert!(words.iter().all(|&word| word == 0xAAAA));
        assert!(ticks.iter().all(|&tick| tick == 77));
    }
    let exact = translate(&power_on(), &plan, &mut [0; 5], &mut [0; 5]);
    assert_eq!(
        exact,
        Ok(Translation {
            count: 5,
            end: 69 + 158 + 9
        })
    );
}

#[test]
fn numbers_1_to_9_come_before_10() {
    let faulty = plan_of(&[vec![15], vec![5, 2]]);
    let answer = translate(&power_on(), &faulty, &mut [], &mut []);
    assert_eq!(answer.map_err(|refusal| refusal.number), Err(8));
}

#[test]
fn the_latest_end() {
    let waits = vec![wide_order(17, &[65535]); 64];
    let done = translate(&power_on(), &plan_of(&waits), &mut [], &mut []);
    assert_eq!(
        done,
        Ok(Translation {
            count: 0,
            end: 4_194_240
        })
    );
}

#[test]
fn the_most_words() {
    let mirrors = vec![wide_order(12, &[5, 6]); 64];
    let mut words = [0; 256];
    let mut ticks = [0; 256];
    let done = translate(&power_on(), &plan_of(&mirrors), &mut words, &mut ticks);
    assert_eq!(
        done,
        Ok(Translation {
            count: 256,
            end: 256
        })
    );
    assert!(ticks.iter().copied().eq(0..256));
}

#[test]
fn any_bytes_are_taken_or_refused() {
    let mut random = Random::new(5);
    for _ in 0..50_000 {
        let body: Vec<u8> = (0..random.within(0, 40))
            .map(|_| random.byte() % 20)
            .collect();
        refusal(&plan_with_body(&body));
        refusal(&body);
    }
}
