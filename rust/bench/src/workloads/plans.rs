//! Translation of plans of several sizes.

use super::{shuffle, Workload};
use compare::orders::{plan, Order, MOST_ORDERS};
use compare::random::Random;
use compare::sides::Side;
use compare::states;
use shabgozim::MOST_WORDS;
use std::hint::black_box;

const PLANS: usize = 34;
const MIRROR: u8 = 12;
const WAIT: u8 = 17;

/// Several plans of as many orders each, from power-on.
pub struct Translations {
    plans: Vec<Vec<u8>>,
    words: [u16; MOST_WORDS],
    ticks: [u32; MOST_WORDS],
}

impl Translations {
    fn of(plans: Vec<Vec<u8>>) -> Translations {
        Translations {
            plans,
            words: [0; MOST_WORDS],
            ticks: [0; MOST_WORDS],
        }
    }

    /// Orders of every code, as often each, with waits of the given ticks.
    pub fn every_code(orders: usize, wait: i32) -> Translations {
        let mut random = Random::new(3);
        let mut all: Vec<Order> = (1..=WAIT)
            .cycle()
            .take(PLANS * orders)
            .map(|code| order(&mut random, code, wait))
            .collect();
        shuffle(&mut random, &mut all);
        Translations::of(all.chunks(orders).map(plan).collect())
    }

    /// As many words as a plan can have.
    pub fn most_words() -> Translations {
        let mut random = Random::new(4);
        let mut orders = || -> Vec<Order> {
            let orders = (0..MOST_ORDERS).map(|_| Order::random(&mut random, MIRROR));
            orders.collect()
        };
        Translations::of((0..PLANS).map(|_| plan(&orders())).collect())
    }
}

fn order(random: &mut Random, code: u8, wait: i32) -> Order {
    let mut order = Order::random(random, code);
    if code == WAIT {
        order.values[0] = wait;
    }
    order
}

impl Workload for Translations {
    fn calls(&self) -> usize {
        self.plans.len()
    }

    fn pass<S: Side>(&mut self) -> u64 {
        let state = states::power_on();
        let translate = |plan: &Vec<u8>| {
            let words = black_box(&mut self.words[..]);
            let ticks = black_box(&mut self.ticks[..]);
            S::translate(black_box(&state[..]), black_box(plan), words, ticks)
        };
        let answers = self.plans.iter().map(translate);
        answers.fold(0, u64::wrapping_add)
    }
}
