//! Lists as text: of every sort, at the limits, and damaged; and why a text is
//! refused, in words.

use crate::line_case::{LineCase, LONGEST};
use crate::lists::ticks_not_rising;
use crate::random::Random;
use crate::random_lists::RandomLists;
use crate::random_texts::{damage, text};
use crate::reduce::Counted;
use crate::room::Room;
use crate::sides::Sides;
use crate::states;
use crate::text_case::{Reader, TextCase};
use crate::text_limits;

/// Every refusal in words, texts at the limits, and random ones, each then
/// damaged in several ways.
pub fn texts(sides: &Sides, random: &mut Random, times: u32) -> Counted {
    let lists = RandomLists::new();
    let mut reader = Reader::new(sides);
    let mut count = in_words(sides, random)?;
    count += text_limits::texts(&mut reader, random)?;
    for _ in 0..100_000 * times {
        let mut list = lists.any_from(random, &states::power_on());
        if random.once_in(8) {
            ticks_not_rising(random, &mut list.ticks);
        }
        let case = TextCase {
            text: text(random, &list.words, &list.ticks),
            words: Room::any(random),
            ticks: Room::any(random),
        };
        count += reader.compare(&case)?;
        count += damaged(&mut reader, random, &case)?;
    }
    Ok(count)
}

/// The text damaged once, and some of them once more.
fn damaged(reader: &mut Reader, random: &mut Random, case: &TextCase) -> Counted {
    let mut count = 0;
    for _ in 0..4 {
        let mut damaged = case.clone();
        damage(random, &mut damaged.text);
        count += reader.compare(&damaged)?;
        if random.once_in(4) {
            damage(random, &mut damaged.text);
            count += reader.compare(&damaged)?;
        }
    }
    Ok(count)
}

/// Every number, with lines of every length and in every room that is too short
/// or just enough.
fn in_words(sides: &Sides, random: &mut Random) -> Counted {
    let mut count = 0;
    for number in 0..=u8::MAX {
        for line in [0, 1, 9, 10, 258, 8193, u32::MAX, random.bits() as u32] {
            count += LineCase::new(number, line).compare(sides)?;
        }
        for by in -LONGEST..=1 {
            let mut case = LineCase::new(number, random.bits() as u32);
            case.room = Room::Beside(by);
            count += case.compare(sides)?;
        }
    }
    Ok(count)
}
