//! Two words as far apart as motions and tasks last, and as far as can be.

use crate::list_case::{ComparesLists, ListCase};
use crate::reduce::Counted;
use crate::states::{self, Numbers};
use paper::state::{
    COVER_STEP_TICKS, HK_TICKS, MIRROR_TICKS, MOST_ACQUISITION_TICKS, MOST_COVER_TICKS,
};
use shabgozim::place;

/// Gaps that 31, 24, 17, 16, 15 or 8 bits cannot say, or just can.
const GAPS: [u32; 23] = [
    u32::MAX,
    u32::MAX - 1,
    0x8000_0001,
    0x8000_0000,
    0x7FFF_FFFF,
    0x0100_0001,
    0x0100_0000,
    0x0002_0003,
    0x0001_0010,
    0x0001_0003,
    0x0001_0002,
    0x0001_0001,
    0x0001_0000,
    0xFFFF,
    0xFFFE,
    0x8001,
    0x8000,
    0x7FFF,
    513,
    512,
    257,
    256,
    255,
];

/// How long tasks and motions last.
const LASTING: [u16; 5] = [
    MOST_ACQUISITION_TICKS,
    MOST_COVER_TICKS,
    MIRROR_TICKS,
    COVER_STEP_TICKS,
    HK_TICKS,
];

/// Words after which there is something to end: START, HK, COVER by 81 steps
/// and by one, SWITCH; and NOP, STOP and an unknown one.
const FIRST_WORDS: [u16; 8] = [
    0x8000, 0x4000, 0x13D1, 0x1001, 0x5000, 0x0000, 0xC000, 0x3800,
];

/// Words that tell whether it has ended.
const SECOND_WORDS: [u16; 3] = [0x8000, 0x1201, 0xE0FF];

/// Two words with every gap; the first tick is 0, or the second the last tick
/// there is.
pub fn between_two(lister: &mut impl ComparesLists, base: &Numbers) -> Counted {
    let mut count = 0;
    for gap in gaps() {
        for first in FIRST_WORDS {
            for second in SECOND_WORDS {
                let mut case = ListCase::new(base, vec![first, second], vec![0, gap]);
                count += lister.compare(&case)?;
                case.ticks = vec![u32::MAX - gap, u32::MAX];
                count += lister.compare(&case)?;
            }
        }
    }
    Ok(count)
}

/// All of them, and those about the ends of tasks and motions.
fn gaps() -> Vec<u32> {
    let shortest = paper::power_on().settings.acquisition_length();
    let lasting = LASTING.map(u32::from).into_iter().chain([shortest]);
    let about = lasting.flat_map(|ticks| [ticks - 2, ticks - 1, ticks, ticks + 1, ticks + 2]);
    GAPS.into_iter().chain(about).collect()
}

/// The longest acquisition and both motions just begun, the last word of a
/// mirror set due, and every flag set.
pub fn busy_and_moving() -> Numbers {
    let mut state = states::longest_times();
    state[place::IR_TIME_FLAG..=place::VIS_WORD_FLAG].fill(1);
    state[place::TASK] = 1;
    state[place::BUSY] = MOST_ACQUISITION_TICKS;
    state[place::MIRROR_MOTION] = MIRROR_TICKS;
    state[place::COVER_MOTION] = MOST_COVER_TICKS;
    state[place::SET_WORDS] = 3;
    state
}
