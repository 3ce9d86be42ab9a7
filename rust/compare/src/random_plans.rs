//! Random plans of orders in range.

use crate::orders::{Order, MIRROR, MOST_ORDERS, WAIT, WINDOW};
use crate::random::Random;

/// So many random orders.
pub fn random_orders(random: &mut Random, count: usize) -> Vec<Order> {
    (0..count).map(|_| Order::any(random)).collect()
}

/// Up to 64 orders of any code.
pub fn any_orders(random: &mut Random) -> Vec<Order> {
    let most = *random.pick(&[1, 4, 16, MOST_ORDERS as i32]);
    let count = random.within(0, most) as usize;
    random_orders(random, count)
}

/// Up to 64 orders of any code; some plans have many words or a late end.
pub fn any_or_extreme_orders(random: &mut Random) -> Vec<Order> {
    match random.below(32) {
        0 => many_words(random),
        1 => late_end(random),
        _ => any_orders(random),
    }
}

/// As many words as can be, or a few words fewer.
pub fn many_words(random: &mut Random) -> Vec<Order> {
    let others = random.below(4);
    mostly(random, others, |random| {
        let code = *random.pick(&[WINDOW, MIRROR]);
        Order::random(random, code)
    })
}

/// Long waits with other orders between them: the end is often millions.
pub fn late_end(random: &mut Random) -> Vec<Order> {
    let shortest = *random.pick(&[0, 60_000, 65_535]);
    let others = random.within(0, MOST_ORDERS as i32) as usize;
    mostly(random, others, |random| {
        Order::new(WAIT, &[random.within(shortest, 65_535)])
    })
}

/// About 64 orders of one sort, up to so many of them replaced by any others.
fn mostly(random: &mut Random, others: usize, usual: impl Fn(&mut Random) -> Order) -> Vec<Order> {
    let count = MOST_ORDERS - random.below(4);
    let mut orders: Vec<Order> = (0..count).map(|_| usual(random)).collect();
    for _ in 0..others {
        orders[random.below(count)] = Order::any(random);
    }
    orders
}

#[cfg(test)]
mod tests {
    use super::*;
    use crate::orders::plan;
    use paper::{power_on, translate, Translation};

    fn translated(sort: fn(&mut Random) -> Vec<Order>) -> Vec<Translation> {
        let mut random = Random::new(1);
        let mut one = |_| {
            let plan = plan(&sort(&mut random));
            let done = translate(&power_on(), &plan, &mut [0; 256], &mut [0; 256]);
            done.expect("an accepted plan")
        };
        (0..1000).map(&mut one).collect()
    }

    #[test]
    fn many_words_are_up_to_256() {
        let counts = translated(many_words).into_iter().map(|done| done.count);
        assert_eq!(counts.clone().max(), Some(256));
        assert!(counts.clone().all(|count| count >= 58 * 4), "{counts:?}");
    }

    #[test]
    fn late_ends_are_up_to_the_latest() {
        let ends = translated(late_end).into_iter().map(|done| done.end);
        assert_eq!(ends.clone().max(), Some(4_194_240));
        let late = ends.filter(|&end| end > 800_000).count();
        assert!(late > 500, "{late}");
    }
}
