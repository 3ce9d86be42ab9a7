//! Inspections of lists of every sort, at the limits, of every word, and of
//! what is no list.

use crate::inspection_case::{InspectionCase, Inspector};
use crate::list_limits::{self, LONG_LENGTHS};
use crate::lists::{ticks_not_rising, unequal_lengths};
use crate::random::Random;
use crate::random_lists::RandomLists;
use crate::reduce::Counted;
use crate::room::Room;
use crate::sides::Sides;
use crate::states;
use shabgozim::MOST_WORDS;

const STOP: u16 = 0xC000;
/// Longer than any task or motion.
const LONG_GAP: u32 = 5000;

/// What a word may find: a head that is busy with an acquisition or with
/// housekeeping, and a set begun then too; a cover or a mirror that moves; and
/// a mirror set of one to three words.
const BEFORE: [&[u16]; 8] = [
    &[0x8000],
    &[0x4000],
    &[0x2010, 0x8000],
    &[0x13D1],
    &[0x5000],
    &[0x201F],
    &[0x2010, 0xA0FF],
    &[0x2001, 0xA001, 0x600F],
];

/// Data at the limits of one kind or another.
const DATA: [u16; 18] = [
    0, 1, 2, 4, 5, 7, 8, 15, 16, 31, 32, 81, 82, 127, 255, 256, 511, 1023,
];

/// Random lists, each of them then with something wrong; every limit, and every
/// word.
pub fn inspections(sides: &Sides, random: &mut Random, times: u32) -> Counted {
    let lists = RandomLists::new();
    let mut inspector = Inspector::new(sides);
    let mut count = long_lengths(&mut inspector)?;
    for _ in 0..4_000 * times {
        let mut list = lists.any_from(random, &states::power_on());
        count += inspector.inspect(&InspectionCase::of(&list, Room::any(random)))?;
        match random.below(2) {
            0 => ticks_not_rising(random, &mut list.ticks),
            _ => unequal_lengths(random, &mut list),
        }
        count += inspector.inspect(&InspectionCase::of(&list, Room::any(random)))?;
    }
    for before in BEFORE {
        count += words_after(&mut inspector, before)?;
    }
    count += list_limits::from_power_on(&mut inspector, random)?;
    count += every_word(&mut inspector)?;
    Ok(count)
}

/// Each of the 65,536 words to a head that is idle and at rest.
fn every_word(inspector: &mut Inspector) -> Counted {
    let every: Vec<u16> = (0..=u16::MAX).collect();
    let mut count = 0;
    for words in every.chunks(MOST_WORDS) {
        count += spaced(inspector, words.to_vec(), LONG_GAP)?;
    }
    Ok(count)
}

/// Words of every identifier after these, each followed by STOP; as many as
/// may be in a list.
fn words_after(inspector: &mut Inspector, before: &[u16]) -> Counted {
    let identifiers = (0..64).map(|identifier| identifier << 10);
    let words = identifiers.flat_map(|identifier| DATA.map(|data| identifier | data));
    let words: Vec<u16> = words.collect();
    let mut count = 0;
    for words in words.chunks(MOST_WORDS / (before.len() + 2)) {
        let list = words
            .iter()
            .flat_map(|&word| [before, &[word, STOP]].concat());
        count += spaced(inspector, list.collect(), 1)?;
    }
    Ok(count)
}

/// Words with the same gap between any two.
fn spaced(inspector: &mut Inspector, words: Vec<u16>, gap: u32) -> Counted {
    let ticks = (0..words.len() as u32).map(|index| index * gap).collect();
    let room = Room::Every;
    inspector.inspect(&InspectionCase { words, ticks, room })
}

/// Lists far too long.
fn long_lengths(inspector: &mut Inspector) -> Counted {
    let mut count = 0;
    for words in LONG_LENGTHS {
        for ticks in LONG_LENGTHS {
            count += inspector.inspect(&InspectionCase {
                words: vec![0; words],
                ticks: (0..ticks as u32).collect(),
                room: Room::Every,
            })?;
        }
    }
    Ok(count)
}
