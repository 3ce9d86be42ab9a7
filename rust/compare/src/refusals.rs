//! Refusals in words: of every number, of every order of a plan, and of
//! damaged plans.

use crate::orders::{self, Order, MOST_ORDERS};
use crate::plans::any_plan;
use crate::random::Random;
use crate::random_plans::random_orders;
use crate::reduce::Counted;
use crate::refusal_case::{names_order, RefusalCase, MOST_ROOM};
use crate::sides::Sides;

/// Orders with a fault: 5 twice, 6, 7 and 8.
const FAULTY: [&[u8]; 5] = [&[0], &[9, 15], &[1, 18], &[2, 15, 0], &[2, 5, 2]];

/// Every number, place of an order and room, and random plans.
pub fn in_words(sides: &Sides, random: &mut Random, times: u32) -> Counted {
    let mut count = numbers_and_rooms(sides, random)?;
    for _ in 0..40 * times {
        count += of_every_order(sides, random)?;
    }
    for _ in 0..200_000 * times {
        if let Some(mut case) = RefusalCase::of(any_plan(random)) {
            case.room = any_room(random, case.room);
            count += case.compare(sides)?;
        }
    }
    Ok(count)
}

/// Every number with places that need not be an order's, in every room.
fn numbers_and_rooms(sides: &Sides, random: &mut Random) -> Counted {
    let mut count = 0;
    for number in (0..=u8::MAX).filter(|&number| !names_order(number)) {
        for place in [0, 1, 99, 65_537, u32::MAX, random.bits() as u32] {
            count += RefusalCase::new(number, place, any_plan(random)).compare(sides)?;
        }
        for room in 0..=MOST_ROOM {
            let mut case = RefusalCase::new(number, 0, Vec::new());
            case.room = room;
            count += case.compare(sides)?;
        }
    }
    Ok(count)
}

/// Each fault after every number of orders, and a 65th order.
fn of_every_order(sides: &Sides, random: &mut Random) -> Counted {
    let full = random_orders(random, MOST_ORDERS);
    let mut count = 0;
    for before in 0..=MOST_ORDERS {
        let body: Vec<u8> = full[..before].iter().flat_map(Order::bytes).collect();
        for faulty in FAULTY {
            let plan = orders::with_body(&[&body[..], faulty].concat());
            let case = RefusalCase::of(plan).expect("a refused plan");
            count += case.compare(sides)?;
        }
    }
    Ok(count)
}

/// Mostly as it is.
fn any_room(random: &mut Random, room: usize) -> usize {
    match random.below(16) {
        0 => room - 1,
        1 => room + 1,
        2 => random.below(room),
        _ => room,
    }
}
