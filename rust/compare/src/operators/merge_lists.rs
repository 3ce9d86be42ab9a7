//! Lists of entries to merge: all small ones, ones at the limits, and long random
//! ones.

use super::merge_case::{entry, tick_and_word, MergeCase};
use crate::random::Random;

/// The last tick that an entry can have.
pub const LAST_TICK: u64 = (1 << 48) - 1;
/// Ticks about which 16, 32 and more bits end.
pub const LIMIT_TICKS: [u64; 11] = [
    0,
    1,
    (1 << 16) - 1,
    1 << 16,
    (1 << 32) - 1,
    1 << 32,
    (1 << 32) + 1,
    1 << 47,
    (1 << 47) + 1,
    LAST_TICK - 1,
    LAST_TICK,
];

/// Gives an entry its word: by the index of its tick, its place in the list, and
/// whether it is the CCD list.
pub type Words = fn(usize, usize, bool) -> u16;

/// Words that would decide wrongly if they were compared before the ticks, or
/// with them.
pub const SORTS_OF_WORDS: [Words; 4] = [
    |_, _, is_ccd| if is_ccd { 0xFFFF } else { 0 },
    |_, _, is_ccd| if is_ccd { 0 } else { 0xFFFF },
    |index, _, _| 0xFFFF - 0x1001 * index as u16,
    |_, place, is_ccd| 0x1000 * place as u16 + u16::from(is_ccd),
];

/// All rows of up to so many of these places, also with the same place twice.
pub fn rows(places: usize, most: usize) -> Vec<Vec<usize>> {
    let mut rows = vec![Vec::new()];
    let mut longest = rows.clone();
    for _ in 0..most {
        let longer = longest.iter().flat_map(|row: &Vec<usize>| {
            let with = |place| [&row[..], &[place]].concat();
            (0..places).map(with)
        });
        longest = longer.collect();
        rows.extend_from_slice(&longest);
    }
    rows
}

pub fn rises(row: &[usize]) -> bool {
    row.windows(2).all(|pair| pair[0] < pair[1])
}

/// The entries at the ticks of a row.
pub fn entries(row: &[usize], ticks: &[u64], words: Words, is_ccd: bool) -> Vec<u64> {
    let entry = |(place, &index)| entry(ticks[index], words(index, place, is_ccd));
    row.iter().enumerate().map(entry).collect()
}

/// How many ticks there are from an entry to the next.
type Gap = fn(&mut Random) -> u64;

const GAPS: [Gap; 4] = [
    |_| 1,
    |random| 1 + random.below(4) as u64,
    |random| 1 + (random.bits() >> (16 + random.below(48))),
    |random| 1 + (random.bits() >> (34 + random.below(30))),
];

/// To whose list the next entry goes: often to the last one's.
type Deal = fn(&mut Random, bool) -> bool;

const DEALS: [Deal; 4] = [
    |random, _| random.once_in(2),
    |_, last| !last,
    |random, last| last != random.once_in(8),
    |random, last| last != random.once_in(500),
];

/// Two lists that are merged, of up to so many entries together, with room for
/// all of them.
pub fn any(random: &mut Random, most: usize) -> MergeCase {
    let count = random.within(0, most as i32) as usize;
    let (gap, deal) = (*random.pick(&GAPS), *random.pick(&DEALS));
    let ticks = rising(random, count, gap);
    let mut case = MergeCase::new(Vec::new(), Vec::new());
    let mut is_ccd = random.once_in(2);
    for tick in ticks {
        is_ccd = deal(random, is_ccd);
        let list = match is_ccd {
            true => &mut case.ccd,
            false => &mut case.infrared,
        };
        list.push(entry(tick, word(random)));
    }
    case
}

/// Rising ticks, often up to the last there is; fewer where it comes before.
fn rising(random: &mut Random, count: usize, gap: Gap) -> Vec<u64> {
    let mut ticks: Vec<u64> = Vec::with_capacity(count);
    let mut now = 0;
    while ticks.len() < count && now <= LAST_TICK {
        ticks.push(now);
        now += gap(random);
    }
    let most = LAST_TICK - ticks.last().copied().unwrap_or(0);
    let by = match random.below(4) {
        0 => 0,
        1 => most,
        _ => most.min(random.bits() >> (16 + random.below(48))),
    };
    ticks.iter().map(|tick| tick + by).collect()
}

fn word(random: &mut Random) -> u16 {
    match random.below(4) {
        0 => 0,
        1 => 0xFFFF,
        _ => random.number(),
    }
}

/// Makes one tick of a list equal to the one before it, or less; the word may be
/// greater.
pub fn not_rising(random: &mut Random, list: &mut [u64], place: usize) {
    let (before, _) = tick_and_word(list[place - 1]);
    let tick = match random.below(4) {
        0 => before.saturating_sub(1),
        1 => random.bits() % (before + 1),
        _ => before,
    };
    list[place] = entry(tick, word(random));
}

/// Puts a tick of one list into the other, with the same word or another.
pub fn same_tick(random: &mut Random, case: &mut MergeCase) {
    let (from, to) = match random.once_in(2) {
        true => (&case.ccd, &mut case.infrared),
        false => (&case.infrared, &mut case.ccd),
    };
    if from.is_empty() {
        return;
    }
    let at = random.within(0, from.len() as i32 - 1) as usize;
    let (tick, same) = tick_and_word(from[at]);
    let word = match random.below(4) {
        0 => same,
        _ => word(random),
    };
    let place = to.partition_point(|&before| tick_and_word(before).0 < tick);
    to.insert(place, entry(tick, word));
}

#[cfg(test)]
mod tests {
    use super::*;
    use paper::merge;

    #[test]
    fn rows_of_places() {
        assert_eq!(rows(6, 4).len(), 1 + 6 + 36 + 216 + 1296);
        let rising = rows(6, 4).into_iter().filter(|row| rises(row)).count();
        assert_eq!(rising, 1 + 6 + 15 + 20 + 15);
    }

    #[test]
    fn any_two_lists_are_merged_until_one_has_a_tick_twice() {
        let mut random = Random::new(1);
        let mut counts = [0; 3];
        for _ in 0..1000 {
            let mut case = any(&mut random, 60);
            let done = merge(&case.ccd, &case.infrared, 100).expect("two lists");
            counts[usize::from(done.list)] += 1;
            let before = case.ccd.len() + case.infrared.len();
            same_tick(&mut random, &mut case);
            if case.ccd.len() + case.infrared.len() > before {
                assert_eq!(merge(&case.ccd, &case.infrared, 100), Err(53));
                counts[2] += 1;
            }
        }
        assert!(counts.iter().all(|&count| count > 200), "{counts:?}");
    }
}
