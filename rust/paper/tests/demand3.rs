//! Demand 3 on random accepted plans, and words at the earliest ticks.

mod common;

use common::{plan_of, random_orders, random_state, slow_translation, wide_order, Random};
use paper::{
    power_on, read_plan, run, translate, CoverMove, LoggedAct, Reading, State, Translation,
};

const PLANS: u64 = if cfg!(debug_assertions) { 200 } else { 4000 };

struct Buffers {
    words: Vec<u16>,
    ticks: Vec<u32>,
    done: Translation,
}

fn translated(state: &State, plan: &[u8]) -> Buffers {
    let mut words = vec![0xAAAA; 300];
    let mut ticks = vec![0xBBBB_BBBB; 300];
    let done = translate(state, plan, &mut words, &mut ticks).unwrap();
    assert!(words[done.count..].iter().all(|&word| word == 0xAAAA));
    assert!(ticks[done.count..].iter().all(|&tick| tick == 0xBBBB_BBBB));
    words.truncate(done.count);
    ticks.truncate(done.count);
    Buffers { words, ticks, done }
}

fn demand_3_holds(state: &State, plan: &[u8]) {
    let Buffers { words, ticks, done } = translated(state, plan);
    let run = run(state, &words, &ticks, done.end);
    assert!(run.checks.all(), "{:?}", run.checks);
    let read = read_plan(state, plan).unwrap();
    assert_eq!(run.state.settings, read.settings);
    assert_eq!(run.log, read.log);
    assert!(done.end <= 4_194_240);
    assert_eq!(run.state.busy, 0);
}

#[test]
fn demand_3_on_random_plans() {
    for seed in 0..PLANS {
        let mut random = Random::new(seed);
        let state = random_state(&mut random, false);
        let orders = random_orders(&mut random);
        demand_3_holds(&state, &plan_of(&orders));
    }
}

#[test]
fn every_word_goes_at_the_earliest_tick() {
    for seed in 0..PLANS {
        let mut random = Random::new(1_000_000 + seed);
        let state = random_state(&mut random, false);
        let orders = random_orders(&mut random);
        let Buffers { words, ticks, done } = translated(&state, &plan_of(&orders));
        let (sent, end) = slow_translation(&state, &orders);
        assert!(words.into_iter().zip(ticks).eq(sent));
        assert_eq!(done.end, end);
    }
}

#[test]
fn demand_3_from_power_on_with_every_order() {
    let orders = [
        wide_order(1, &[2440]),
        wide_order(2, &[4095]),
        wide_order(3, &[10, 20]),
        wide_order(4, &[5, 7]),
        vec![5, 1],
        wide_order(6, &[72, 0, 947, 511]),
        vec![7, 1],
        vec![8, 1, 2],
        vec![9, 1, 9],
        vec![10, 1, 8],
        vec![11, 1, 60],
        wide_order(12, &[-1i16 as u16, 4094]),
        vec![13, 1],
        vec![14, 1, 0, 1, 81],
        vec![15],
        vec![16],
        wide_order(17, &[100]),
        vec![14, 0, 1, 0, 0],
    ];
    let plan = plan_of(&orders);
    demand_3_holds(&power_on(), &plan);
    let Reading { settings, log } = read_plan(&power_on(), &plan).unwrap();
    let mut exposed_under = settings;
    exposed_under.cover_direction = 1;
    assert_eq!((settings.sine, settings.switch), (0x1001, 0));
    assert_eq!((settings.ccd_lamp, settings.annealing), (5, 121));
    let cover = |direction, wave, sensors, steps| {
        LoggedAct::Cover(CoverMove {
            direction,
            wave,
            sensors,
            steps,
        })
    };
    let expected = [
        cover(1, 0, 1, 81),
        LoggedAct::Exposure(exposed_under),
        LoggedAct::Housekeeping,
        cover(0, 1, 0, 0),
    ];
    assert_eq!(log, expected);
}

#[test]
fn cover_words_wait_for_the_cover() {
    let orders = [
        vec![14, 1, 0, 0, 2],
        vec![16],
        vec![14, 0, 0, 0, 0],
        vec![14, 1, 0, 0, 1],
        wide_order(12, &[0, 0]),
        vec![15],
    ];
    let Buffers { words, ticks, done } = translated(&power_on(), &plan_of(&orders));
    assert_eq!(words[..4], [0x1202, 0x4000, 0x1000, 0x1201]);
    assert_eq!(ticks, [0, 1, 50, 51, 52, 53, 54, 55, 121]);
    assert_eq!(done.end, 121 + 158);
}

#[test]
fn sine_zero_is_sent_plus() {
    let mut state = power_on();
    state.settings.sine = 0x1000;
    let plan = plan_of(&[wide_order(12, &[0, 5])]);
    assert_eq!(translated(&state, &plan).words[0], 0x2000);
    assert_eq!(read_plan(&state, &plan).unwrap().settings.sine, 0);
    demand_3_holds(&state, &plan);
}

#[test]
fn a_run_tells_what_goes_wrong() {
    let start_while_moving = run(&power_on(), &[0x5000, 0x8000], &[0, 1], 300);
    assert!(!start_while_moving.checks.nothing_moved);
    let word_while_busy = run(&power_on(), &[0x8000, 0xD801], &[0, 1], 300);
    assert!(!word_while_busy.checks.every_word_taken);
    assert!(!word_while_busy.checks.flags_unchanged);
    assert!(word_while_busy.checks.settings_unchanged);
    let too_late = run(&power_on(), &[0x0000], &[5], 5);
    assert!(!too_late.checks.every_word_delivered);
}
