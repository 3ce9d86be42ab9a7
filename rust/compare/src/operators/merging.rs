//! Lists merged: the number, whose the rest is, the count, the start, and every
//! place for entries.

use super::merge_case::{entry, MergeCase, Merger};
use super::merge_lists::{any, entries, not_rising, rises, rows, same_tick};
use super::merge_lists::{Words, LAST_TICK, LIMIT_TICKS, SORTS_OF_WORDS};
use crate::random::Random;
use crate::reduce::Counted;
use crate::sides::Sides;

/// How many neighbouring ticks small lists have, and where these begin.
const TICKS: u64 = 6;
const BEGINS: [u64; 3] = [0, (1 << 32) - TICKS / 2, LAST_TICK + 1 - TICKS];
/// More places than small lists need.
const SMALL: usize = 8;
/// How many entries two random lists may have together.
const SHORT: usize = 40;
const LONG: usize = 6000;
/// One more for a tick put into a list.
const LONGEST: usize = LONG + 1;

/// All small lists, lists at the limits, and random ones, each then with things
/// wrong.
pub fn lists(sides: &Sides, random: &mut Random, times: u32) -> Counted {
    let mut small = Merger::new(sides, SMALL);
    let mut count = limit_ticks(&mut small)?;
    for begin in BEGINS {
        count += all_rising(&mut small, begin)?;
    }
    count += every_place(sides, random)?;
    count += very_long(sides)?;
    count += all_short(&mut small)?;
    count += all_with_one_rising(&mut small)?;
    let mut short = Merger::new(sides, SHORT + 1);
    for _ in 0..40_000 * times {
        count += right_and_wrong(&mut short, random, SHORT)?;
    }
    let mut long = Merger::new(sides, LONGEST);
    for _ in 0..80 * times {
        count += right_and_wrong(&mut long, random, LONG)?;
    }
    Ok(count)
}

/// Two rows of indices of ticks, as lists, in every room.
fn in_every_room(merger: &mut Merger, ticks: &[u64], rows: [&[usize]; 2], words: Words) -> Counted {
    let [ccd, infrared] = rows;
    let ccd = entries(ccd, ticks, words, true);
    let infrared = entries(infrared, ticks, words, false);
    let mut case = MergeCase::new(ccd, infrared);
    for room in 0..=SMALL {
        case.room = Some(room);
        merger.compare(&case)?;
    }
    Ok(SMALL as u64 + 1)
}

/// Every two lists of up to four entries with rising ticks.
fn all_rising(merger: &mut Merger, begin: u64) -> Counted {
    let ticks: Vec<u64> = (begin..begin + TICKS).collect();
    let mut rows = rows(ticks.len(), 4);
    rows.retain(|row| rises(row));
    let mut count = 0;
    for ccd in &rows {
        for infrared in &rows {
            for words in SORTS_OF_WORDS {
                count += in_every_room(merger, &ticks, [ccd, infrared], words)?;
            }
        }
    }
    Ok(count)
}

/// Every two lists of up to three entries with any ticks.
fn all_short(merger: &mut Merger) -> Counted {
    let ticks: Vec<u64> = (0..TICKS).collect();
    let rows = rows(ticks.len(), 3);
    let mut count = 0;
    for (index, ccd) in rows.iter().enumerate() {
        for infrared in &rows {
            let words = SORTS_OF_WORDS[index % SORTS_OF_WORDS.len()];
            count += in_every_room(merger, &ticks, [ccd, infrared], words)?;
        }
    }
    Ok(count)
}

/// Every list of four entries with any ticks, and a rising one on either side.
fn all_with_one_rising(merger: &mut Merger) -> Counted {
    let ticks: Vec<u64> = (0..TICKS).collect();
    let mut any = rows(ticks.len(), 4);
    let mut rising = any.clone();
    any.retain(|row| row.len() == 4);
    rising.retain(|row| rises(row));
    let mut count = 0;
    for (index, one) in any.iter().enumerate() {
        for other in &rising {
            let words = SORTS_OF_WORDS[index % SORTS_OF_WORDS.len()];
            let room = Some(index % (SMALL + 1));
            for [ccd, infrared] in [[one, other], [other, one]] {
                let ccd = entries(ccd, &ticks, words, true);
                let infrared = entries(infrared, &ticks, words, false);
                let case = MergeCase {
                    ccd,
                    infrared,
                    room,
                };
                count += merger.compare(&case)?;
            }
        }
    }
    Ok(count)
}

/// Every two lists of up to two entries with ticks at the limits, with room for
/// every entry and for none.
fn limit_ticks(merger: &mut Merger) -> Counted {
    let rows = rows(LIMIT_TICKS.len(), 2);
    let mut count = 0;
    for ccd in &rows {
        for infrared in &rows {
            for words in SORTS_OF_WORDS {
                let ccd = entries(ccd, &LIMIT_TICKS, words, true);
                let infrared = entries(infrared, &LIMIT_TICKS, words, false);
                let mut case = MergeCase::new(ccd, infrared);
                count += merger.compare(&case)?;
                case.room = Some(0);
                count += merger.compare(&case)?;
            }
        }
    }
    Ok(count)
}

/// Two lists in rooms just enough and not, and with ticks that do not rise or are
/// in both.
fn right_and_wrong(merger: &mut Merger, random: &mut Random, most: usize) -> Counted {
    let mut case = any(random, most);
    let mut count = rooms(merger, &mut case)?;
    let mut both = case.clone();
    same_tick(random, &mut both);
    both.room = *random.pick(&[None, Some(0)]);
    count += merger.compare(&both)?;
    for mut case in [case, both] {
        let list = match random.once_in(2) {
            true => &mut case.ccd,
            false => &mut case.infrared,
        };
        if list.len() > 1 {
            let place = random.within(1, list.len() as i32 - 1) as usize;
            not_rising(random, list, place);
            count += merger.compare(&case)?;
        }
    }
    Ok(count)
}

/// Room for every entry, for the merged ones, for one less and one more, and
/// none.
fn rooms(merger: &mut Merger, case: &mut MergeCase) -> Counted {
    let needed = paper::merge(&case.ccd, &case.infrared, usize::MAX);
    let needed = needed.map_or(0, |merged| merged.entries.len());
    let rooms = [needed.saturating_sub(1), needed, needed + 1, 0].map(Some);
    let mut count = 0;
    for room in rooms.into_iter().chain([None]) {
        case.room = room;
        count += merger.compare(case)?;
    }
    Ok(count)
}

/// Lists with lengths that one or two bytes take for less.
fn very_long(sides: &Sides) -> Counted {
    const LENGTHS: [usize; 6] = [0, 1, 255, 257, 65_535, 65_537];
    let list = |length, which| (0..length as u64).map(move |index| entry(2 * index + which, 0));
    let mut merger = Merger::new(sides, 2 * LENGTHS[5]);
    let mut count = 0;
    for ccd in LENGTHS {
        for infrared in LENGTHS {
            let (ccd, infrared) = (list(ccd, 0).collect(), list(infrared, 1).collect());
            count += rooms(&mut merger, &mut MergeCase::new(ccd, infrared))?;
        }
    }
    Ok(count)
}

/// Two long lists with each tick in turn not above the one before it, and with
/// each tick in turn put into the other list.
fn every_place(sides: &Sides, random: &mut Random) -> Counted {
    const ENTRIES: usize = 300;
    let mut merger = Merger::new(sides, ENTRIES + 1);
    let mut case = any(random, ENTRIES);
    while case.ccd.len() < 60 || case.infrared.len() < 60 {
        case = any(random, ENTRIES);
    }
    let mut count = 0;
    for place in 1..case.ccd.len() {
        let mut wrong = case.clone();
        not_rising(random, &mut wrong.ccd, place);
        count += merger.compare(&wrong)?;
    }
    for place in 1..case.infrared.len() {
        let mut wrong = case.clone();
        not_rising(random, &mut wrong.infrared, place);
        count += merger.compare(&wrong)?;
    }
    for place in 0..case.ccd.len() {
        let mut wrong = case.clone();
        let same = case.ccd[place] ^ 1;
        let before = wrong.infrared.partition_point(|&entry| entry < same);
        wrong.infrared.insert(before, same);
        count += merger.compare(&wrong)?;
    }
    Ok(count)
}
