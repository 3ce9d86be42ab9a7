//! Answers about words in words: all of them, numbers that are no such answers,
//! and rooms that are just enough, too short, none, and enough for every line.

use super::explanation_case::{Explainer, ExplanationCase, MOST_ROOM};
use crate::random::Random;
use crate::reduce::{Counted, Failure};
use crate::room::Room;
use crate::sides::Sides;
use crate::states;
use crate::steps::words_of_each_kind;
use std::collections::BTreeSet;

const ROOMS: [Room; 4] = [
    Room::Every,
    Room::Beside(0),
    Room::Beside(-1),
    Room::Beside(-(MOST_ROOM as isize)),
];

const TAKEN: u32 = 0;
const STATE_REFUSED: u32 = 21;
const WRONG_TIME: u32 = 22;
const UNKNOWN: u32 = 23;
const OUT_OF_RANGE: u32 = 24;
const OUT_OF_TURN: u32 = 25;
const OF_COVER: u32 = 1 << 31;
/// The numbers in bits 0 to 7 of an answer.
const NUMBERS: [u32; 6] = [
    TAKEN,
    STATE_REFUSED,
    WRONG_TIME,
    UNKNOWN,
    OUT_OF_RANGE,
    OUT_OF_TURN,
];

/// All answers that occur, all others of their form, and numbers that have
/// another.
pub fn lines(sides: &Sides, random: &mut Random, times: u32) -> Counted {
    let mut explainer = Explainer::new(sides);
    let mut count = that_occur(&mut explainer, sides, random)?;
    for why in of_the_form().chain(of_other_numbers()).chain(one_bit_off()) {
        count += in_every_room(&mut explainer, why)?;
    }
    for _ in 0..50_000 * times {
        let bits = random.bits() as u32;
        count += in_every_room(&mut explainer, bits)?;
        let of_a_rule = bits & !0xFF | random.pick(&NUMBERS);
        count += in_every_room(&mut explainer, of_a_rule)?;
    }
    Ok(count)
}

fn in_every_room(explainer: &mut Explainer, why: u32) -> Counted {
    let needed = ExplanationCase::needed(why);
    let mut count = 0;
    for room in ROOMS {
        count += explainer.compare(ExplanationCase { why, room }, needed)?;
    }
    Ok(count)
}

/// What the library answers about words from every limit. Each has a line.
fn that_occur(explainer: &mut Explainer, sides: &Sides, random: &mut Random) -> Counted {
    let mut answers = BTreeSet::new();
    for state in states::at_limits(&states::power_on()) {
        let words = words_of_each_kind(random).into_iter();
        answers.extend(words.map(|word| (sides.library.why)(&state, word)));
    }
    let mut text = [0; MOST_ROOM];
    let mut count = 0;
    for why in answers {
        count += in_every_room(explainer, why)?;
        if (sides.library.explanation)(why, &mut text) == 0 {
            return Err(Failure(format!("answer {why:#X} has no line")));
        }
    }
    Ok(count)
}

/// Every number that has the form of an answer.
fn of_the_form() -> impl Iterator<Item = u32> {
    let with_16_bits = [WRONG_TIME, WRONG_TIME | OF_COVER, UNKNOWN, OUT_OF_RANGE];
    let details = with_16_bits.into_iter();
    let details = details.flat_map(|why| (0..=0xFFFF).map(move |detail| why | detail << 8));
    let kinds = (0..=0xFF).map(|kind| OUT_OF_TURN | kind << 8);
    let plain = [TAKEN, STATE_REFUSED].into_iter();
    plain.chain(details).chain(kinds)
}

/// Every number in bits 0 to 7, with several in the others.
fn of_other_numbers() -> impl Iterator<Item = u32> {
    const OTHER_BITS: [u32; 7] = [0, 1, 22, 0x2000, 0xFFFF, 0x80_0001, 0xFF_FFFF];
    (0..=0xFF).flat_map(|number| OTHER_BITS.map(|bits| bits << 8 | number))
}

/// Answers with each bit changed by itself.
fn one_bit_off() -> impl Iterator<Item = u32> {
    const DETAILS: [u32; 5] = [0, 1, 24, 0xAA00, 0xFFFF];
    let answers = NUMBERS.into_iter().chain([WRONG_TIME | OF_COVER]);
    let answers = answers.flat_map(|why| DETAILS.map(|detail| why | detail << 8));
    answers.flat_map(|why| (0..u32::BITS).map(move |bit| why ^ 1 << bit))
}
