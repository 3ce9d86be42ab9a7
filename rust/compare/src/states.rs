//! States in range, at every limit, one past it, and arbitrary ones.

use crate::random::Random;
use paper::state::{
    HK_TICKS, LEAST_CCD_DELAY, MIRROR_TICKS, MOST_ACQUISITION_TICKS, MOST_COVER_TICKS, STATE_LENGTH,
};
use paper::state::{TASK_ACQUISITION, TASK_HOUSEKEEPING};
use shabgozim::place;

pub type Numbers = [u16; STATE_LENGTH];

const NAMES: [&str; STATE_LENGTH] = [
    "detector",
    "window mode",
    "VDETCOM",
    "VDETADJ",
    "IR delay",
    "IR expo",
    "CCD delay",
    "CCD expo",
    "X1",
    "Y1",
    "X2",
    "Y2",
    "CCD lamp",
    "IR lamp",
    "shutter",
    "annealing",
    "sine",
    "cosine",
    "SWITCH",
    "cover direction",
    "VDETCOM latch",
    "VDETADJ latch",
    "IR time",
    "IR word",
    "IR scan",
    "VIS time",
    "VIS word",
    "task",
    "busy",
    "mirror motion",
    "cover motion",
    "set words",
    "SIN M",
    "SIN L",
    "COS M",
];

/// The largest number of each place; where places depend on each other, the
/// largest that can be.
const MOST: Numbers = [
    1,
    1,
    4095,
    4095,
    1023,
    1023,
    1023,
    1023,
    1023,
    511,
    1023,
    511,
    7,
    31,
    31,
    127,
    8191,
    4095,
    1,
    1,
    15,
    15,
    1,
    1,
    1,
    1,
    1,
    2,
    MOST_ACQUISITION_TICKS,
    MIRROR_TICKS,
    MOST_COVER_TICKS,
    3,
    31,
    255,
    15,
];

/// Places that can only be changed together without leaving the ranges.
const TOGETHER: [&[usize]; 2] = [
    &[place::TASK, place::BUSY],
    &[
        place::SET_WORDS,
        place::SET_SIN_M,
        place::SET_SIN_L,
        place::SET_COS_M,
    ],
];

/// Places that count down.
pub const COUNTS: [usize; 3] = [place::BUSY, place::MIRROR_MOTION, place::COVER_MOTION];
/// What makes a count end sooner; none becomes 0.
pub const SOONER: [fn(u16) -> u16; 2] = [|count| count.min(1), |count| count.div_ceil(2)];

pub fn power_on() -> Numbers {
    paper::power_on().to_array()
}

/// Power-on, but for the times of the longest acquisition.
pub fn longest_times() -> Numbers {
    let times = [
        place::IR_DELAY,
        place::IR_EXPO,
        place::CCD_DELAY,
        place::CCD_EXPO,
    ];
    with(&power_on(), &times.map(|time| (time, MOST[time])))
}

/// Power-on; busy with each task for one tick and for as long as can be; with
/// something moving; and with each number of mirror words begun.
pub fn plain() -> Vec<Numbers> {
    let busy = |task, ticks| vec![(place::TASK, task), (place::BUSY, ticks)];
    let mut changes = vec![
        Vec::new(),
        busy(TASK_ACQUISITION, 1),
        busy(TASK_ACQUISITION, MOST_ACQUISITION_TICKS),
        busy(TASK_HOUSEKEEPING, 1),
        busy(TASK_HOUSEKEEPING, HK_TICKS),
        vec![(place::COVER_MOTION, 1)],
        vec![(place::COVER_MOTION, MOST_COVER_TICKS)],
        vec![(place::MIRROR_MOTION, 1)],
    ];
    changes.extend((1..=3).map(|begun| vec![(place::SET_WORDS, begun)]));
    let states = changes.iter().map(|changes| with(&power_on(), changes));
    states.collect()
}

/// The state with other numbers at some places.
pub fn with(base: &Numbers, changes: &[(usize, u16)]) -> Numbers {
    let mut numbers = *base;
    for &(place, value) in changes {
        numbers[place] = value;
    }
    numbers
}

fn least(place: usize) -> u16 {
    match place {
        place::CCD_DELAY => LEAST_CCD_DELAY,
        _ => 0,
    }
}

/// The state with each place in turn at its limits, one past them, and far
/// past them; then with dependent places so.
pub fn at_limits(base: &Numbers) -> Vec<Numbers> {
    let mut states = vec![*base];
    for (place, most) in MOST.into_iter().enumerate() {
        let least = least(place);
        let values = [
            least,
            least.wrapping_sub(1),
            least + 1,
            most - 1,
            most,
            most + 1,
            0x7FFF,
            0x8000,
            most + 256,
        ];
        states.extend(values.map(|value| with(base, &[(place, value)])));
    }
    states.extend(task_limits(base));
    states.extend(set_limits(base));
    states
}

fn task_limits(base: &Numbers) -> Vec<Numbers> {
    const BUSY: [u16; 8] = [
        0,
        1,
        2,
        HK_TICKS,
        HK_TICKS + 1,
        MOST_ACQUISITION_TICKS,
        MOST_ACQUISITION_TICKS + 1,
        u16::MAX,
    ];
    let tasks = (0..=3).chain([u16::MAX]);
    let pairs = tasks.flat_map(|task| BUSY.map(|busy| [(place::TASK, task), (place::BUSY, busy)]));
    pairs.map(|pair| with(base, &pair)).collect()
}

fn set_limits(base: &Numbers) -> Vec<Numbers> {
    let mut states = Vec::new();
    for words in 0..=4 {
        for sin_m in [0, 31, 32] {
            for sin_l in [0, 255, 256] {
                for cos_m in [0, 15, 16] {
                    states.push(with(
                        base,
                        &[
                            (place::SET_WORDS, words),
                            (place::SET_SIN_M, sin_m),
                            (place::SET_SIN_L, sin_l),
                            (place::SET_COS_M, cos_m),
                        ],
                    ));
                }
            }
        }
    }
    states
}

/// A state in range, idle and at rest.
pub fn idle(random: &mut Random) -> Numbers {
    let mut numbers = [0; STATE_LENGTH];
    for (place, number) in numbers.iter_mut().enumerate().take(place::TASK) {
        *number = random.within(least(place).into(), MOST[place].into()) as u16;
    }
    let words = random.within(0, 3) as u16;
    numbers[place::SET_WORDS] = words;
    for place in place::SET_SIN_M..place::SET_SIN_M + usize::from(words) {
        numbers[place] = random.within(0, MOST[place].into()) as u16;
    }
    numbers
}

/// A state in range.
pub fn in_range(random: &mut Random) -> Numbers {
    let mut numbers = idle(random);
    let (task, busy) = match random.below(4) {
        0 => (1, random.within(1, MOST_ACQUISITION_TICKS.into())),
        1 => (2, random.within(1, HK_TICKS.into())),
        _ => (0, 0),
    };
    numbers[place::TASK] = task;
    numbers[place::BUSY] = busy as u16;
    for place in [place::MIRROR_MOTION, place::COVER_MOTION] {
        if random.once_in(2) {
            numbers[place] = random.within(0, MOST[place].into()) as u16;
        }
    }
    numbers
}

/// Where a run may start: power-on, or any state in range.
pub fn any_start(random: &mut Random) -> Numbers {
    match random.below(2) {
        0 => power_on(),
        _ => in_range(random),
    }
}

/// A state in range but for a few arbitrary numbers.
pub fn damaged(random: &mut Random) -> Numbers {
    let mut numbers = in_range(random);
    for _ in 0..=random.below(3) {
        numbers[random.below(STATE_LENGTH)] = random.number() >> random.below(16);
    }
    numbers
}

/// Arbitrary numbers.
pub fn arbitrary(random: &mut Random) -> Numbers {
    std::array::from_fn(|_| random.number())
}

/// A state of any sort.
pub fn any(random: &mut Random) -> Numbers {
    match random.below(8) {
        0 => power_on(),
        1 | 2 => idle(random),
        3 => damaged(random),
        4 => arbitrary(random),
        _ => in_range(random),
    }
}

/// States nearer to power-on by one place, or by places that go together.
pub fn shorter(state: &[u16]) -> Vec<Vec<u16>> {
    if state.len() != STATE_LENGTH {
        return Vec::new();
    }
    let nearer = groups().map(|group| {
        let mut nearer = state.to_vec();
        group
            .iter()
            .for_each(|&place| nearer[place] = power_on()[place]);
        nearer
    });
    nearer.filter(|nearer| nearer != state).collect()
}

/// States in which a task or a motion ends sooner.
fn sooner(state: &Numbers) -> Vec<Numbers> {
    let places = COUNTS.into_iter();
    let changes = places.flat_map(|at| SOONER.map(|sooner| (at, sooner(state[at]))));
    let changes = changes.filter(|&(at, count)| count != state[at]);
    changes.map(|change| with(state, &[change])).collect()
}

/// States nearer to power-on, or in which a task or a motion ends sooner.
pub fn shorter_or_sooner(state: &[u16]) -> Vec<Vec<u16>> {
    let mut states = shorter(state);
    if let Ok(numbers) = state.try_into() {
        states.extend(sooner(numbers).iter().map(|sooner| sooner.to_vec()));
    }
    states
}

/// Places that go together, and then each place alone.
pub fn groups() -> impl Iterator<Item = Vec<usize>> {
    let single = (0..STATE_LENGTH).map(|place| vec![place]);
    TOGETHER.into_iter().map(<[usize]>::to_vec).chain(single)
}

/// A state by its differences from power-on.
pub fn describe(state: &[u16]) -> String {
    if state.len() != STATE_LENGTH {
        return format!("{} numbers {state:?}", state.len());
    }
    let mut text = String::from("power-on");
    for (place, (&number, usual)) in state.iter().zip(power_on()).enumerate() {
        if number != usual {
            text += &format!(", {} ({place}) = {number}", NAMES[place]);
        }
    }
    text
}
