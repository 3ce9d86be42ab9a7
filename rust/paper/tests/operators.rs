//! Two operators on one head: what is passed on, and what the CCD operator
//! observes.

mod common;

use common::{random_state, Random};
use paper::{busy_ticks, decode, group_number, observe, pass_on, power_on, word};
use paper::{CcdRegisters, Decoded, Given, Group, Observation, Seen, State, Tick};

const START: u16 = 0x8000;
const HK: u16 = 0x4000;
const STOP: u16 = 0xC000;

/// First and last allowed word of each kind of the CCD group.
const CCD_WORDS: [(u16, u16); 7] = [
    (0x2800, 0x2BFF),
    (0xA800, 0xA9FF),
    (0x6800, 0x6BFF),
    (0xE800, 0xE9FF),
    (0x1805, 0x1BFF),
    (0x9800, 0x9BFF),
    (0x5800, 0x5807),
];

const CONTROLLER_WORDS: [u16; 4] = [0x0000, START, HK, STOP];

fn is_ccd_word(code: u16) -> bool {
    let within = |&(first, last): &(u16, u16)| (first..=last).contains(&code);
    CCD_WORDS.iter().any(within)
}

/// All the rest of the allowed words.
fn is_infrared_word(code: u16) -> bool {
    let allowed = matches!(decode(code), Decoded::Allowed { .. });
    allowed && !is_ccd_word(code) && !CONTROLLER_WORDS.contains(&code)
}

/// An operator's word, and the state it leaves.
fn passed(given: &State, operator: u8, code: u16) -> (u16, State) {
    let mut state = *given;
    let number = pass_on(&mut state, operator, code);
    (number, state)
}

/// The head's own answer.
fn by_the_head(given: &State, code: u16) -> (u16, State) {
    let mut state = *given;
    let number = word(&mut state, code);
    (number, state)
}

fn busy_with(task: u16, busy: u16) -> State {
    let mut head = power_on();
    (head.task, head.busy) = (task, busy);
    head
}

#[test]
fn groups_of_kinds() {
    for code in 0..=u16::MAX {
        let Decoded::Allowed { kind, .. } = decode(code) else {
            continue;
        };
        let (group, number) = match code {
            _ if is_ccd_word(code) => (Group::Ccd, 0),
            _ if CONTROLLER_WORDS.contains(&code) => (Group::Controller, 2),
            _ => (Group::Infrared, 1),
        };
        assert_eq!(Group::of(kind), group, "{code:04X}");
        assert_eq!(group_number(kind.index()), number, "{code:04X}");
    }
}

#[test]
fn groups_by_number() {
    let numbers: Vec<u8> = (0..=255).map(group_number).collect();
    assert_eq!(numbers[..4], [2; 4]);
    assert_eq!(numbers[4..12], [1; 8]);
    assert_eq!(numbers[12..19], [0; 7]);
    assert_eq!(numbers[19..28], [1; 9]);
    assert_eq!(numbers[28..], [3; 228]);
}

#[test]
fn every_word_of_every_operator_to_an_idle_head() {
    let head = power_on();
    let mut counts = [0; 2];
    for code in 0..=u16::MAX {
        let passes = [is_ccd_word(code), is_infrared_word(code)];
        for (operator, passes) in (0..).zip(passes) {
            let expected = match passes {
                true => by_the_head(&head, code),
                false => (51, head),
            };
            assert_eq!(passed(&head, operator, code), expected, "{code:04X}");
            counts[usize::from(operator)] += u16::from(passes);
        }
    }
    assert_eq!(counts, [5123, 4006]);
}

#[test]
fn no_other_number_is_an_operator() {
    let head = power_on();
    for operator in 2..=255 {
        for code in [0x2800, 0xD801, 0x0000, START, HK, STOP, 0x3800] {
            assert_eq!(passed(&head, operator, code), (51, head));
        }
    }
}

#[test]
fn nothing_is_passed_on_to_a_busy_head() {
    for head in [busy_with(1, 4238), busy_with(1, 1), busy_with(2, 3)] {
        for code in 0..=u16::MAX {
            assert_eq!(passed(&head, 0, code), (51, head));
            assert_eq!(passed(&head, 1, code), (51, head));
        }
    }
}

#[test]
fn examples_of_words_passed_on() {
    let head = power_on();
    let (number, state) = passed(&head, 0, 0x1806);
    assert_eq!((number, state.settings.ccd_delay), (0, 6));
    let (number, state) = passed(&head, 1, 0x1201);
    assert_eq!((number, state.cover_motion), (0x1201, 25));
    assert_eq!(passed(&head, 0, 0x1804), (51, head));
    assert_eq!(passed(&head, 0, 0x0801), (51, head));
    assert_eq!(passed(&head, 1, 0x9801), (51, head));
    assert_eq!(passed(&head, 1, 0x1252), (51, head));
}

#[test]
fn a_word_passed_on_may_be_ignored() {
    let mut head = power_on();
    head.cover_motion = 7;
    let (number, state) = passed(&head, 1, 0x1001);
    assert_eq!((number, state.ir_time_flag, state.cover_motion), (22, 1, 7));
    assert_eq!(passed(&head, 0, 0x1001), (51, head));
    head.mirror_set.received = 1;
    let (number, state) = passed(&head, 1, 0xE000);
    assert_eq!((number, state.ir_scan_flag), (25, 1));
    assert_eq!(state.mirror_set.received, 0);
}

#[test]
fn a_mirror_word_not_passed_on_leaves_the_begun_set() {
    let mut head = power_on();
    assert_eq!(pass_on(&mut head, 1, 0x2011), 0);
    let begun = head;
    assert_eq!(pass_on(&mut head, 1, 0xA100), 51);
    assert_eq!(pass_on(&mut head, 0, 0x6000), 51);
    assert_eq!(head, begun);
    let words = [0xA000, 0x600F, 0xE0F8];
    assert_eq!(words.map(|code| pass_on(&mut head, 1, code)), [0; 3]);
    assert_eq!(head.settings.sine, 0x1100);
}

#[test]
fn a_state_out_of_range_comes_before_all_else() {
    let mut head = busy_with(1, 4239);
    for operator in [0, 1, 2, 255] {
        for code in [0x2800, 0xD801, START, STOP, 0x3800, 0x1804] {
            assert_eq!(passed(&head, operator, code), (21, head));
        }
    }
    (head.task, head.busy) = (0, 0);
    head.settings.ccd_delay = 4;
    assert_eq!(passed(&head, 0, 0x1805), (21, head));
}

fn tick_with(given: Given) -> Tick {
    let vis_latch_up = false;
    Tick {
        given,
        vis_latch_up,
    }
}

fn nothing() -> Tick {
    tick_with(Given::Nothing)
}

fn ccd(code: u16) -> Tick {
    tick_with(Given::ByCcd(code))
}

fn infrared(code: u16) -> Tick {
    tick_with(Given::ByInfrared(code))
}

fn controller(code: u16) -> Tick {
    tick_with(Given::ByController(code))
}

/// The same ticks with the latch-up bit set in each.
fn latched(mut ticks: Vec<Tick>) -> Vec<Tick> {
    for tick in &mut ticks {
        tick.vis_latch_up = true;
    }
    ticks
}

/// These ticks, and so many without a word.
fn then(mut ticks: Vec<Tick>, idle: usize) -> Vec<Tick> {
    ticks.extend(vec![nothing(); idle]);
    ticks
}

fn registers() -> CcdRegisters {
    CcdRegisters::of(&power_on())
}

/// A tick at which the registers stay these.
fn seen(registers: CcdRegisters, own_word: Option<u16>, vis_flags: Option<u16>) -> Seen {
    Seen {
        before: registers,
        own_word,
        after_word: registers,
        vis_flags,
    }
}

/// The numbers of the CCD operator's own words.
fn own_words(seen: &Observation) -> Vec<u16> {
    let words = seen.ticks.iter().filter_map(|tick| tick.own_word);
    words.collect()
}

/// Each flag word, and the tick of its blocks.
fn vis_flags(seen: &Observation) -> Vec<(usize, u16)> {
    let flags = |(tick, seen): (usize, &Seen)| seen.vis_flags.map(|flags| (tick, flags));
    seen.ticks.iter().enumerate().filter_map(flags).collect()
}

#[test]
fn registers_of_the_ccd() {
    let numbers: [u16; 35] = std::array::from_fn(|index| 1000 + index as u16);
    let registers = CcdRegisters {
        x1: 1008,
        y1: 1009,
        x2: 1010,
        y2: 1011,
        delay: 1006,
        expo: 1007,
        lamp: 1012,
    };
    assert_eq!(CcdRegisters::of(&State::from_array(&numbers)), registers);
}

#[test]
fn an_empty_run() {
    let end = registers();
    let ticks = Vec::new();
    assert_eq!(observe(&power_on(), &[]), Observation { ticks, end });
    let busy = busy_ticks(&busy_with(2, 1), &[]);
    assert_eq!((busy.ticks, busy.end), (vec![], true));
    assert!(!busy_ticks(&power_on(), &[]).end);
}

#[test]
fn a_whole_observation() {
    let lit = CcdRegisters {
        lamp: 7,
        ..registers()
    };
    let run = [
        ccd(0x5807),
        infrared(0x5806),
        controller(HK),
        ccd(0x5800),
        nothing(),
        nothing(),
    ];
    let lamp_set = Seen {
        before: registers(),
        ..seen(lit, Some(0), None)
    };
    let nothing_seen = seen(lit, None, None);
    let not_passed_on = seen(lit, Some(51), None);
    let blocks = seen(lit, None, Some(0x0102));
    let (end, ticks) = (
        lit,
        vec![
            lamp_set,
            nothing_seen,
            nothing_seen,
            not_passed_on,
            blocks,
            nothing_seen,
        ],
    );
    assert_eq!(observe(&power_on(), &run), Observation { ticks, end });
    let busy = busy_ticks(&power_on(), &run);
    assert_eq!(busy.ticks, [false, false, false, true, true, false]);
    assert!(!busy.end);
}

#[test]
fn the_end_shows_the_last_word() {
    let seen = observe(&power_on(), &[nothing(), ccd(0x2BFF)]);
    assert_eq!(seen.end.x1, 1023);
    assert_eq!(seen.ticks[1].before.x1, 0);
    assert_eq!(seen.ticks[1].after_word.x1, 1023);
}

#[test]
fn the_controllers_words_go_straight_to_the_head() {
    let run = [controller(0x2801), controller(0x3800), controller(HK)];
    let seen = observe(&power_on(), &then(run.to_vec(), 3));
    assert_eq!(seen.ticks[0].after_word.x1, 1);
    assert_eq!(own_words(&seen), []);
    assert_eq!(vis_flags(&seen), [(4, 0x000A)]);
}

#[test]
fn the_operators_words_raise_no_vis_flag() {
    let run = vec![
        ccd(0x3800),
        infrared(0x3800),
        infrared(0x5801),
        infrared(0xC001),
        controller(START),
        ccd(0x2801),
        infrared(0xD801),
        infrared(STOP),
    ];
    let seen = observe(&power_on(), &then(run, 200));
    assert_eq!(own_words(&seen), [51, 51]);
    assert_eq!(vis_flags(&seen), [(4 + 157, 0x0003)]);
}

#[test]
fn a_stopped_task_gives_no_flag_word() {
    let run = [controller(START), nothing(), controller(STOP), nothing()];
    assert_eq!(vis_flags(&observe(&power_on(), &run)), []);
    let busy = busy_ticks(&power_on(), &run);
    assert_eq!(busy.ticks, [false, true, true, false]);
}

#[test]
fn each_vis_flag_word_shows_its_own_ticks_latch_up() {
    let mut run = then(vec![controller(HK)], 9);
    run[5].given = Given::ByController(HK);
    run[2].vis_latch_up = true;
    let seen = observe(&power_on(), &run);
    assert_eq!(vis_flags(&seen), [(2, 0x0012), (7, 0x0002)]);
}

#[test]
fn flags_are_shown_once() {
    let mut head = busy_with(1, 1);
    (head.vis_time_flag, head.vis_word_flag) = (1, 1);
    let run = then(vec![nothing(), controller(HK)], 5);
    let seen = observe(&head, &run);
    assert_eq!(vis_flags(&seen), [(0, 0x000F), (3, 0x0002)]);
}

#[test]
fn a_run_from_a_state_out_of_range() {
    let head = busy_with(3, 2);
    let run = [ccd(0x2801), infrared(0xD801), controller(STOP), nothing()];
    let quiet = seen(registers(), None, None);
    let refused = seen(registers(), Some(21), None);
    let (ticks, end) = (vec![refused, quiet, quiet, quiet], registers());
    assert_eq!(observe(&head, &run), Observation { ticks, end });
    let busy = busy_ticks(&head, &run);
    assert_eq!((busy.ticks, busy.end), (vec![true; 4], true));
}

/// A run and where it starts.
struct Run {
    state: State,
    ticks: Vec<Tick>,
}

/// A run of these ticks from power-on.
fn from_power_on(ticks: Vec<Tick>) -> Run {
    let state = power_on();
    Run { state, ticks }
}

/// A run of so many ticks without a word.
fn without_words(state: State, count: usize) -> Run {
    let ticks = then(Vec::new(), count);
    Run { state, ticks }
}

impl Run {
    fn seen(&self) -> Observation {
        observe(&self.state, &self.ticks)
    }

    /// The words that one of the three gives, tick by tick.
    fn words(&self, own: fn(Given) -> Option<u16>) -> Vec<Option<u16>> {
        self.ticks.iter().map(|tick| own(tick.given)).collect()
    }

    fn vis_bits(&self) -> Vec<bool> {
        self.ticks.iter().map(|tick| tick.vis_latch_up).collect()
    }
}

fn by_ccd(given: Given) -> Option<u16> {
    match given {
        Given::ByCcd(code) => Some(code),
        _ => None,
    }
}

fn by_infrared(given: Given) -> Option<u16> {
    match given {
        Given::ByInfrared(code) => Some(code),
        _ => None,
    }
}

fn by_controller(given: Given) -> Option<u16> {
    match given {
        Given::ByController(code) => Some(code),
        _ => None,
    }
}

fn vis_flags_held(state: &State) -> (u16, u16) {
    (state.vis_time_flag, state.vis_word_flag)
}

/// The premises of request P6 that two runs break.
fn broken(one: &Run, other: &Run) -> Vec<&'static str> {
    let states = [&one.state, &other.state];
    let [registers, others] = states.map(CcdRegisters::of);
    let [flags, other_flags] = states.map(vis_flags_held);
    let [busy, other_busy] = [one, other].map(|run| busy_ticks(&run.state, &run.ticks));
    let same = |own: fn(Given) -> Option<u16>| one.words(own) == other.words(own);
    let premises = [
        ("CCD registers", registers == others),
        ("VIS flags", flags == other_flags),
        ("task", one.state.task == other.state.task),
        ("CCD words", same(by_ccd)),
        ("controller words", same(by_controller)),
        ("busy ticks", busy.ticks == other_busy.ticks),
        ("busy at the end", busy.end == other_busy.end),
        ("VIS bits", one.vis_bits() == other.vis_bits()),
    ];
    let broken = premises.into_iter().filter(|(_, holds)| !holds);
    broken.map(|(name, _)| name).collect()
}

/// Two runs that break one premise alone and are told apart.
fn told_apart_by(premise: &str, one: &Run, other: &Run) {
    assert_eq!(broken(one, other), [premise]);
    assert_ne!(one.seen(), other.seen());
}

#[test]
fn infrared_words_that_are_not_seen() {
    let set = [0x2011, 0xA000, 0x600F, 0xE0F8, 0x1001, 0x1001, 0xE000];
    let words = [0xD801, 0x9001, 0x8801, 0xC801, 0x4801, 0x5000, 0x3000];
    let words = set.into_iter().chain(words);
    let mut ticks: Vec<Tick> = words.map(infrared).collect();
    let mut quiet = then(Vec::new(), ticks.len());
    for ticks in [&mut ticks, &mut quiet] {
        ticks.extend([ccd(0x2801), controller(START)]);
        ticks.extend([nothing(); 200]);
    }
    let [one, other] = [ticks, quiet].map(from_power_on);
    assert_eq!(broken(&one, &other), [""; 0]);
    assert_eq!(one.seen(), other.seen());
    assert_eq!(vis_flags(&one.seen()), [(15 + 157, 0x0003)]);
}

#[test]
fn the_infrared_operators_timing_is_seen() {
    let ticks = |first| {
        let mut ticks = then(vec![first, controller(START)], 400);
        ticks[200] = ccd(0x2801);
        ticks
    };
    // 158 ticks, or 1 + 2 x (5 + 100) + 140.
    let [short, long] = [nothing(), infrared(0x0864)].map(|first| from_power_on(ticks(first)));
    told_apart_by("busy ticks", &short, &long);
    assert_eq!(own_words(&short.seen()), [0]);
    assert_eq!(own_words(&long.seen()), [51]);
    assert_eq!(vis_flags(&short.seen()), [(158, 0x0003)]);
    assert_eq!(vis_flags(&long.seen()), [(351, 0x0003)]);
}

#[test]
fn the_running_task_is_seen() {
    let acquisition = without_words(busy_with(1, 3), 5);
    let housekeeping = without_words(busy_with(2, 3), 5);
    told_apart_by("task", &acquisition, &housekeeping);
    assert_eq!(vis_flags(&acquisition.seen()), [(2, 0x0003)]);
    assert_eq!(vis_flags(&housekeeping.seen()), [(2, 0x0002)]);
}

#[test]
fn busy_at_the_end_is_seen() {
    let ending = without_words(busy_with(1, 4), 4);
    let going_on = without_words(busy_with(1, 5), 4);
    told_apart_by("busy at the end", &ending, &going_on);
    assert_eq!(vis_flags(&going_on.seen()), []);
}

#[test]
fn vis_flags_held_before_are_seen() {
    let clear = without_words(busy_with(2, 2), 2);
    let mut late = busy_with(2, 2);
    late.vis_time_flag = 1;
    told_apart_by("VIS flags", &clear, &without_words(late, 2));
    let mut wrong = busy_with(2, 2);
    wrong.vis_word_flag = 1;
    told_apart_by("VIS flags", &clear, &without_words(wrong, 2));
}

#[test]
fn infrared_flags_held_before_are_not_seen() {
    let clear = without_words(busy_with(2, 2), 2);
    let mut state = busy_with(2, 2);
    (state.ir_time_flag, state.ir_word_flag, state.ir_scan_flag) = (1, 1, 1);
    let flagged = without_words(state, 2);
    assert_eq!(broken(&clear, &flagged), [""; 0]);
    assert_eq!(clear.seen(), flagged.seen());
}

#[test]
fn each_ccd_register_is_seen() {
    let given = without_words(power_on(), 1);
    for (index, value) in [(6, 6), (7, 2), (8, 1), (9, 1), (10, 1), (11, 1), (12, 7)] {
        let mut numbers = power_on().to_array();
        numbers[index] = value;
        let other = without_words(State::from_array(&numbers), 1);
        told_apart_by("CCD registers", &given, &other);
    }
}

#[test]
fn the_callers_vis_bits_are_seen() {
    let clear = without_words(busy_with(1, 2), 2);
    let ticks = latched(clear.ticks.clone());
    let state = clear.state;
    told_apart_by("VIS bits", &clear, &Run { state, ticks });
}

#[test]
fn the_controllers_words_are_seen() {
    // NOP comes at the wrong time; STOP leaves no blocks.
    let [stopped, late] = [STOP, 0x0000].map(|code| Run {
        state: busy_with(1, 1),
        ticks: vec![controller(code)],
    });
    told_apart_by("controller words", &stopped, &late);
    assert_eq!(vis_flags(&stopped.seen()), []);
    assert_eq!(vis_flags(&late.seen()), [(0, 0x0007)]);
}

#[test]
fn the_operators_own_words_are_seen() {
    let [one, other] = [0x2801, 0x2802].map(|code| from_power_on(vec![ccd(code)]));
    told_apart_by("CCD words", &one, &other);
    let early = from_power_on(vec![ccd(0x2801), nothing()]);
    let late = from_power_on(vec![nothing(), ccd(0x2801)]);
    told_apart_by("CCD words", &early, &late);
}

/// A word of one of these kinds, by their first words, with small data.
fn random_of(random: &mut Random, kinds: &[u16]) -> u16 {
    let kind = random.next() as usize % kinds.len();
    kinds[kind] + random.within(0, 15)
}

fn random_infrared(random: &mut Random) -> Given {
    const KINDS: [u16; 17] = [
        0xD800, 0x9000, 0xD000, 0x3000, 0xB000, 0x7000, 0xF000, 0x0800, 0x8800, 0xC800, 0x4800,
        0x2000, 0xA000, 0x6000, 0xE000, 0x5000, 0x1000,
    ];
    match random.next() % 8 {
        0..=2 => Given::Nothing,
        3 => Given::ByInfrared(random.word()),
        _ => Given::ByInfrared(random_of(random, &KINDS)),
    }
}

/// A word of the CCD operator or the controller, if there is one.
fn random_given(random: &mut Random) -> Given {
    const KINDS: [u16; 7] = [0x2800, 0xA800, 0x6800, 0xE800, 0x1800, 0x9800, 0x5800];
    match random.next() % 512 {
        0..=31 => Given::ByCcd(random_of(random, &KINDS)),
        32..=39 => Given::ByCcd(random.word()),
        40..=47 => Given::ByController(START),
        48..=55 => Given::ByController(HK),
        56 => Given::ByController(STOP),
        57 => Given::ByController(random.word()),
        _ => Given::Nothing,
    }
}

/// The CCD registers, the VIS flags and the task of one state, and all else of
/// the other, but for the ticks that the task has left.
fn with_ccd_parts(one: &State, other: &State) -> State {
    const INFRARED: [(usize, usize); 3] = [(0, 6), (13, 25), (29, 35)];
    let mut numbers = one.to_array();
    for (first, end) in INFRARED {
        numbers[first..end].copy_from_slice(&other.to_array()[first..end]);
    }
    State::from_array(&numbers)
}

/// Two states that differ in infrared parts alone.
fn random_states(random: &mut Random) -> [State; 2] {
    let mut one = random_state(random, true);
    one.settings.ccd_delay = random.within(5, 20);
    one.settings.ccd_expo = random.within(0, 20);
    if one.task == 1 {
        one.busy = random.within(1, 30);
    }
    let mut other = with_ccd_parts(&one, &random_state(random, true));
    for state in [&mut one, &mut other] {
        state.settings.ir_delay = random.within(0, 9);
        state.settings.ir_expo = random.within(0, 9);
    }
    [one, other]
}

/// Two runs that differ in infrared words and parts alone.
fn random_runs(random: &mut Random) -> [Run; 2] {
    let mut runs = random_states(random).map(|state| without_words(state, 0));
    for _ in 0..random.within(0, 400) {
        let given = random_given(random);
        let vis_latch_up = random.bit();
        for run in &mut runs {
            let given = match given {
                Given::Nothing => random_infrared(random),
                given => given,
            };
            run.ticks.push(Tick {
                given,
                vis_latch_up,
            });
        }
    }
    runs
}

#[test]
fn infrared_words_are_seen_by_busy_ticks_alone() {
    let mut random = Random::new(63);
    let (mut alike, mut acquisitions, mut apart) = (0, 0, 0);
    for _ in 0..2000 {
        let [one, other] = random_runs(&mut random);
        let (seen, other_seen) = (one.seen(), other.seen());
        let broken = broken(&one, &other);
        assert!(broken.iter().all(|premise| premise.starts_with("busy ")));
        if !broken.is_empty() {
            apart += u32::from(seen != other_seen);
            continue;
        }
        assert_eq!(seen, other_seen);
        alike += u32::from(one.words(by_infrared) != other.words(by_infrared));
        let ended = |(_, flags): &(usize, u16)| flags & 1 == 1;
        acquisitions += vis_flags(&seen).iter().filter(|flags| ended(flags)).count();
    }
    // Enough runs agree and enough do not, or nothing is tried.
    assert!(alike > 100 && acquisitions > 100 && apart > 100);
}
