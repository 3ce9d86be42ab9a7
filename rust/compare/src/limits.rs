//! Translation at its limits: 256 words, the latest ends, and buffers that
//! just hold the words or just don't.

use crate::limit_plans;
use crate::orders::{self, Order};
use crate::plan_case::{PlanCase, Translator, ROOM};
use crate::random::Random;
use crate::random_plans::{late_end, many_words};
use crate::reduce::Counted;
use crate::sides::Sides;
use crate::states::{self, longest_times};

const LONGEST_BUFFER: usize = 131_072;
/// About as long as 16 bits can say, and longer.
const LONG_BUFFERS: [usize; 4] = [65_535, 65_536, 65_537, LONGEST_BUFFER];

/// Fixed plans at every limit, and random ones near the limits.
pub fn plans(sides: &Sides, random: &mut Random, times: u32) -> Counted {
    let mut translator = Translator::new(sides);
    let mut count = 0;
    for state in [states::power_on(), longest_times()] {
        for orders in limit_plans::all() {
            let case = PlanCase::new(&state, orders::plan(&orders));
            count += lengths_about_count(&mut translator, &case)?;
        }
    }
    count += long_buffers(sides)?;
    for sort in [many_words, late_end] {
        count += random_plans(&mut translator, random, sort, 20_000 * times)?;
    }
    Ok(count)
}

/// Both buffers with no room, too little, just enough, and more.
fn lengths_about_count(translator: &mut Translator, case: &PlanCase) -> Counted {
    let mut case = case.clone();
    let needed = translator.words_needed(&case);
    let mut lengths = vec![ROOM, 0, needed.saturating_sub(1), needed, needed + 1];
    lengths.sort_unstable();
    lengths.dedup();
    let mut count = 0;
    for &words in &lengths {
        for &ticks in &lengths {
            (case.words, case.ticks) = (words, ticks);
            count += translator.compare(&case)?;
        }
    }
    Ok(count)
}

/// As many words as can be, into buffers that are far longer.
fn long_buffers(sides: &Sides) -> Counted {
    let mut translator = Translator::with_room(sides, LONGEST_BUFFER);
    let mut count = 0;
    for orders in limit_plans::alone() {
        let mut case = PlanCase::from_power_on(orders::plan(&orders));
        for words in LONG_BUFFERS {
            for ticks in LONG_BUFFERS {
                (case.words, case.ticks) = (words, ticks);
                count += translator.compare(&case)?;
            }
        }
    }
    Ok(count)
}

/// So many plans of a sort, from idle states.
fn random_plans(
    translator: &mut Translator,
    random: &mut Random,
    sort: fn(&mut Random) -> Vec<Order>,
    plans: u32,
) -> Counted {
    let mut count = 0;
    for _ in 0..plans {
        let plan = orders::plan(&sort(random));
        let mut case = PlanCase::new(&states::idle(random), plan);
        count += translator.compare(&case)?;
        let needed = translator.words_needed(&case);
        case.words = needed + random.below(2);
        case.ticks = needed.saturating_sub(random.below(2));
        count += translator.compare(&case)?;
        (case.words, case.ticks) = (case.ticks, case.words);
        count += translator.compare(&case)?;
    }
    Ok(count)
}
