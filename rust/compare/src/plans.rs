//! Translation of plans: every field value, every form, and damaged ones.

use crate::orders::{self, Order, FIELDS, FIRST_PLACE, MOST_ORDERS};
use crate::plan_case::{PlanCase, Translator, ROOM};
use crate::random::Random;
use crate::random_plans::{any_or_extreme_orders, random_orders};
use crate::reduce::Counted;
use crate::sides::Sides;
use crate::states;

fn power_on_or_idle(random: &mut Random) -> states::Numbers {
    match random.below(2) {
        0 => states::power_on(),
        _ => states::idle(random),
    }
}

/// Every value of every field of every code.
pub fn fields(sides: &Sides, random: &mut Random, times: u32) -> Counted {
    let mut translator = Translator::new(sides);
    let mut count = 0;
    for _ in 0..times {
        for (code, fields) in (1..).zip(FIELDS) {
            for field in 0..fields.len() {
                count += every_value(&mut translator, random, code, field)?;
            }
        }
        count += every_window(&mut translator, random)?;
    }
    Ok(count)
}

fn every_value(
    translator: &mut Translator,
    random: &mut Random,
    code: u8,
    field: usize,
) -> Counted {
    let values = match FIELDS[usize::from(code) - 1][field].bytes {
        1 => 0..=i32::from(u8::MAX),
        _ => 0..=i32::from(u16::MAX),
    };
    let mut count = 0;
    for value in values {
        let mut orders = [Order::any(random), Order::random(random, code)];
        orders[1].values[field] = value;
        let case = PlanCase::new(&power_on_or_idle(random), orders::plan(&orders));
        count += translator.compare(&case)?;
    }
    Ok(count)
}

/// Windows whose second column fits the first, in range or not.
fn every_window(translator: &mut Translator, random: &mut Random) -> Counted {
    let mut count = 0;
    for column in 0..=i32::from(u16::MAX) {
        let mut order = Order::random(random, 6);
        order.values[0] = column;
        order.fit_window();
        count += translator.compare(&PlanCase::from_power_on(orders::plan(&[order])))?;
    }
    Ok(count)
}

/// Plans of every short form, of every length and code byte, of as many
/// orders as may be and more, and very long ones.
pub fn forms(sides: &Sides, random: &mut Random, times: u32) -> Counted {
    let mut translator = Translator::new(sides);
    let mut count = short_plans(&mut translator)?;
    for _ in 0..times {
        count += every_length_and_code(&mut translator, random)?;
        count += about_64_orders(&mut translator, random)?;
        count += very_long(&mut translator, random)?;
        count += every_buffer_length(&mut translator, random)?;
    }
    Ok(count)
}

/// Every plan of up to two bytes, and every length with a few versions.
fn short_plans(translator: &mut Translator) -> Counted {
    let mut count = translator.compare(&PlanCase::from_power_on(Vec::new()))?;
    for first in 0..=u8::MAX {
        count += translator.compare(&PlanCase::from_power_on(vec![first]))?;
        for second in 0..=u8::MAX {
            let mut plans = vec![vec![first, second]];
            plans.extend([0, 1, 2, 255].map(|version| vec![version, first, second]));
            plans.extend([0, 1, 2, 255].map(|version| vec![version, first, second, 1, 15]));
            for plan in plans {
                count += translator.compare(&PlanCase::from_power_on(plan))?;
            }
        }
    }
    Ok(count)
}

/// A second order with every length and every code, within the plan or past
/// its end.
fn every_length_and_code(translator: &mut Translator, random: &mut Random) -> Counted {
    let mut count = 0;
    for length in 0..=u8::MAX {
        for code in 0..=u8::MAX {
            let mut body = Order::any(random).bytes();
            body.extend([length, code]);
            let following = random.below(usize::from(length) + 8);
            body.extend((0..following).map(|_| random.byte() >> random.below(8)));
            let case = PlanCase::from_power_on(orders::with_body(&body));
            count += translator.compare(&case)?;
        }
    }
    Ok(count)
}

/// 62 to 66 orders, and 64 followed by anything.
fn about_64_orders(translator: &mut Translator, random: &mut Random) -> Counted {
    let mut count = 0;
    for orders in MOST_ORDERS - 2..=MOST_ORDERS + 2 {
        for _ in 0..200 {
            let plan = orders::plan(&random_orders(random, orders));
            let case = PlanCase::new(&power_on_or_idle(random), plan);
            count += translator.compare(&case)?;
        }
    }
    let full = orders::plan(&random_orders(random, MOST_ORDERS));
    for byte in 0..=u8::MAX {
        let mut body = full[FIRST_PLACE..].to_vec();
        body.push(byte);
        count += translator.compare(&PlanCase::from_power_on(orders::with_body(&body)))?;
        body.push(random.byte());
        count += translator.compare(&PlanCase::from_power_on(orders::with_body(&body)))?;
    }
    Ok(count)
}

/// Bodies about as long as two bytes can say, and longer.
fn very_long(translator: &mut Translator, random: &mut Random) -> Counted {
    let mut count = 0;
    for length in (65_520..65_560).chain([131_071, 131_072]) {
        let mut plan = orders::with_body(&vec![1; length]);
        count += translator.compare(&PlanCase::from_power_on(plan.clone()))?;
        plan[FIRST_PLACE] = random.byte();
        plan[FIRST_PLACE + 1] = random.byte();
        count += translator.compare(&PlanCase::from_power_on(plan))?;
    }
    Ok(count)
}

/// Both buffers of every length up to two more than is needed.
fn every_buffer_length(translator: &mut Translator, random: &mut Random) -> Counted {
    let mut count = 0;
    for orders in 0..8 {
        let plan = orders::plan(&random_orders(random, orders));
        let needed = translator.words_needed(&PlanCase::from_power_on(plan.clone()));
        for words in 0..=needed + 2 {
            for ticks in 0..=needed + 2 {
                let mut case = PlanCase::from_power_on(plan.clone());
                (case.words, case.ticks) = (words, ticks);
                count += translator.compare(&case)?;
            }
        }
    }
    Ok(count)
}

/// Valid plans with each byte changed, left out or doubled, and each part.
pub fn damaged(sides: &Sides, random: &mut Random, times: u32) -> Counted {
    let mut translator = Translator::new(sides);
    let mut count = 0;
    for _ in 0..2000 * times {
        let state = power_on_or_idle(random);
        let case = PlanCase::new(&state, orders::plan(&any_or_extreme_orders(random)));
        count += translator.compare(&case)?;
        count += each_byte_changed(&mut translator, random, &case)?;
        count += each_byte_moved(&mut translator, random, &case)?;
        count += each_part(&mut translator, &case)?;
    }
    Ok(count)
}

fn each_byte_changed(translator: &mut Translator, random: &mut Random, case: &PlanCase) -> Counted {
    let mut count = 0;
    let mut changed = case.clone();
    for at in 0..case.plan.len() {
        let byte = case.plan[at];
        let flipped = (0..8).map(|bit| byte ^ 1 << bit);
        let near = [byte.wrapping_sub(1), byte.wrapping_add(1), random.byte()];
        for value in flipped.chain(near) {
            changed.plan[at] = value;
            count += translator.compare(&changed)?;
        }
        changed.plan[at] = byte;
    }
    Ok(count)
}

/// A byte left out or put in, the plan's length corrected.
fn each_byte_moved(translator: &mut Translator, random: &mut Random, case: &PlanCase) -> Counted {
    let body = &case.plan[FIRST_PLACE..];
    let mut count = 0;
    for at in 0..body.len() {
        let mut without = body.to_vec();
        without.remove(at);
        count += translator.compare(&case.with_plan(orders::with_body(&without)))?;
        let mut with = body.to_vec();
        with.insert(at, random.byte() >> random.below(8));
        count += translator.compare(&case.with_plan(orders::with_body(&with)))?;
    }
    Ok(count)
}

/// The plan cut off at each byte, its length corrected and not.
fn each_part(translator: &mut Translator, case: &PlanCase) -> Counted {
    let mut count = 0;
    for length in 0..case.plan.len() {
        count += translator.compare(&case.with_plan(case.plan[..length].to_vec()))?;
        if length >= FIRST_PLACE {
            let part = orders::with_body(&case.plan[FIRST_PLACE..length]);
            count += translator.compare(&case.with_plan(part))?;
        }
    }
    let mut longer = case.plan.clone();
    longer.push(0);
    count += translator.compare(&case.with_plan(longer))?;
    Ok(count)
}

/// States, plans and buffer lengths of every sort together.
pub fn mixed(sides: &Sides, random: &mut Random, times: u32) -> Counted {
    let mut translator = Translator::new(sides);
    let mut count = 0;
    for state in states::at_limits(&states::power_on()) {
        for _ in 0..20 {
            let case = PlanCase::new(&state, any_plan(random));
            count += translator.compare(&case)?;
        }
    }
    for _ in 0..300_000 * times {
        let mut case = PlanCase::new(&any_state(random), any_plan(random));
        let needed = translator.words_needed(&case);
        case.words = any_length(random, needed);
        case.ticks = any_length(random, needed);
        count += translator.compare(&case)?;
    }
    Ok(count)
}

/// Mostly a state that a plan can be translated for.
fn any_state(random: &mut Random) -> Vec<u16> {
    let numbers = match random.below(4) {
        0 => states::any(random),
        _ => states::idle(random),
    };
    match random.below(32) {
        0 => numbers[..random.below(numbers.len())].to_vec(),
        1 => [&numbers[..], &numbers[..1]].concat(),
        _ => numbers.to_vec(),
    }
}

/// A plan of any sort, sometimes damaged or cut off.
pub fn any_plan(random: &mut Random) -> Vec<u8> {
    let mut plan = orders::plan(&any_or_extreme_orders(random));
    if random.once_in(3) {
        let at = random.below(plan.len());
        plan[at] = random.byte() >> random.below(8);
    }
    if random.once_in(16) {
        plan.truncate(random.below(plan.len() + 1));
    }
    plan
}

fn any_length(random: &mut Random, needed: usize) -> usize {
    match random.below(8) {
        0 => needed.saturating_sub(1),
        1 | 2 => needed,
        3 => needed + 1,
        4 => random.below(ROOM + 1),
        _ => ROOM,
    }
}
