//! Plans at the limits of translation: as many words as can be, and as late
//! an end.

use crate::orders::{self, Order, MOST_ORDERS};
use shabgozim::MOST_WORDS;

const LONGEST_TIME: i32 = 1023;

/// A sort of order: each by its index in the plan.
type Sort = fn(usize) -> Order;

/// The orders with the most words and those that take the longest.
const EXTREMES: [Sort; 7] = [
    mirror,
    window,
    longest_wait,
    exposure,
    longest_cover_move,
    housekeeping,
    motor_on,
];

fn mirror(index: usize) -> Order {
    let pairs = [[-4095, 4095], [4095, 0], [0, 4095], [-1, 1]];
    Order::new(orders::MIRROR, &pairs[index % pairs.len()])
}

fn window(index: usize) -> Order {
    let x1 = [0, 148][index % 2];
    Order::new(orders::WINDOW, &[x1, 0, x1 + orders::WINDOW_WIDTH, 511])
}

fn longest_wait(_: usize) -> Order {
    Order::new(orders::WAIT, &[65_535])
}

fn exposure(_: usize) -> Order {
    Order::new(orders::EXPOSE, &[])
}

/// Direction, wave and sensors differ from one move to the next.
fn longest_cover_move(index: usize) -> Order {
    let bit = |place: u32| (index >> place & 1) as i32;
    Order::new(orders::COVER, &[bit(0), bit(1), bit(2), 81])
}

fn housekeeping(_: usize) -> Order {
    Order::new(orders::HOUSEKEEPING, &[])
}

fn motor_on(_: usize) -> Order {
    Order::new(orders::MOTOR, &[1])
}

/// All the plans below.
pub fn all() -> Vec<Vec<Order>> {
    let mut plans = alone();
    plans.extend(in_turn());
    plans.extend(one_after_another());
    plans.extend(motions_after_waits());
    plans.extend(exposures_after_settings());
    plans.extend(of_every_word_count());
    plans
}

/// 64 orders of one sort.
pub fn alone() -> Vec<Vec<Order>> {
    let plans = EXTREMES.iter();
    let plans = plans.map(|order| (0..MOST_ORDERS).map(order).collect());
    plans.collect()
}

/// 64 orders of two sorts in turn.
pub fn in_turn() -> Vec<Vec<Order>> {
    let plan = |pair: [Sort; 2]| {
        let orders = (0..MOST_ORDERS).map(|index| pair[index % 2](index / 2));
        orders.collect()
    };
    pairs().into_iter().map(plan).collect()
}

/// Every number of orders of one sort, then another sort up to 64 orders.
fn one_after_another() -> Vec<Vec<Order>> {
    let mut plans = Vec::new();
    for [first, second] in pairs() {
        for count in 1..MOST_ORDERS {
            let following = (count..MOST_ORDERS).map(second);
            plans.push((0..count).map(first).chain(following).collect());
        }
    }
    plans
}

/// 63 waits, then one order of each other sort: acts at the latest ticks.
pub fn last_after_waits() -> Vec<Vec<Order>> {
    let waits: Vec<Order> = (1..MOST_ORDERS).map(longest_wait).collect();
    let plans = EXTREMES.iter();
    let plans = plans.map(|order| [&waits[..], &[order(0)]].concat());
    plans.collect()
}

/// Every number of waits, then each motion and what must wait for it.
pub fn motions_after_waits() -> Vec<Vec<Order>> {
    const MOTIONS: [Sort; 8] = [
        mirror,
        exposure,
        motor_on,
        exposure,
        longest_cover_move,
        longest_cover_move,
        exposure,
        housekeeping,
    ];
    let plan = |waits: usize| {
        let motions = (0..).zip(MOTIONS).map(|(index, order)| order(index));
        (0..waits).map(longest_wait).chain(motions).collect()
    };
    (0..=MOST_ORDERS - MOTIONS.len()).map(plan).collect()
}

/// Any two different sorts, in either order.
fn pairs() -> Vec<[Sort; 2]> {
    let mut pairs = Vec::new();
    for (place, first) in EXTREMES.into_iter().enumerate() {
        let (before, after) = (&EXTREMES[..place], &EXTREMES[place + 1..]);
        pairs.extend(before.iter().chain(after).map(|&second| [first, second]));
    }
    pairs
}

/// The longest and shortest times in each readout, then exposures.
pub fn exposures_after_settings() -> Vec<Vec<Order>> {
    let mut plans = Vec::new();
    for ir in [0, LONGEST_TIME] {
        for ccd in [5, LONGEST_TIME] {
            for mode in [0, 1] {
                let mut orders = vec![
                    Order::new(orders::IR_TIMES, &[ir, ir]),
                    Order::new(orders::CCD_TIMES, &[ccd, ccd]),
                    Order::new(orders::WINDOW_MODE, &[mode]),
                ];
                orders.extend((orders.len()..MOST_ORDERS).map(exposure));
                plans.push(orders);
            }
        }
    }
    plans
}

/// A plan for every number of words. 255 is no such number: orders have four
/// words, two, one or none, and 64 orders must do.
pub fn of_every_word_count() -> Vec<Vec<Order>> {
    let plans = (0..=MOST_WORDS).map(of_words);
    plans.filter(|orders| orders.len() <= MOST_ORDERS).collect()
}

fn of_words(words: usize) -> Vec<Order> {
    let mut orders: Vec<Order> = (0..words / 4).map(mirror).collect();
    if words % 4 >= 2 {
        orders.push(Order::new(orders::VDETCOM, &[4095]));
    }
    if words % 2 == 1 {
        orders.push(housekeeping(0));
    }
    orders
}

#[cfg(test)]
mod tests {
    use super::*;
    use crate::states::{longest_times, power_on, Numbers};
    use paper::Translation;
    use std::collections::BTreeSet;

    fn translated(state: &Numbers, orders: &[Order]) -> Translation {
        let (mut words, mut ticks) = ([0; MOST_WORDS], [0; MOST_WORDS]);
        let state = paper::State::from_array(state);
        let done = paper::translate(&state, &orders::plan(orders), &mut words, &mut ticks);
        done.expect("an accepted plan")
    }

    #[test]
    fn the_limits_are_reached() {
        let done = alone().into_iter();
        let done = done.map(|orders| translated(&longest_times(), &orders));
        let limits: Vec<(usize, u32)> = done.map(|done| (done.count, done.end)).collect();
        let exposures = (64, 64 * 4238);
        let cover_moves = (64, 63 * 2025 + 1);
        let [mirrors, windows, waits] = [(256, 256), (256, 256), (0, 4_194_240)];
        assert_eq!(
            limits[..5],
            [mirrors, windows, waits, exposures, cover_moves]
        );
    }

    #[test]
    fn every_word_count_but_255_is_there() {
        let plans = of_every_word_count().into_iter();
        let counts: BTreeSet<usize> = plans
            .map(|orders| translated(&power_on(), &orders).count)
            .collect();
        let expected: BTreeSet<usize> = (0..=256).filter(|&count| count != 255).collect();
        assert_eq!(counts, expected);
    }

    #[test]
    fn every_plan_is_accepted() {
        for orders in all() {
            translated(&power_on(), &orders);
        }
    }
}
