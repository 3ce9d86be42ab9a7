//! Plans listed, their listings read, and their lists inspected: the list of an
//! accepted plan has no findings.

use crate::buffer::{difference, Buffer};
use crate::limit_plans;
use crate::orders;
use crate::plans::any_plan;
use crate::random::Random;
use crate::random_plans::any_or_extreme_orders;
use crate::reduce::{failure, Case, Counted};
use crate::room::Room;
use crate::sides::{Functions, Sides};
use crate::states;
use crate::text_form::{answers_differ, lines_differ, written};
use shabgozim::{INSPECTION_LENGTH, LISTING_LENGTH, MOST_WORDS};
use std::fmt;

/// A fill that is no byte of a text.
const NO_BYTE: u8 = 0xBB;
/// What an answer has in its upper half.
const UPPER: &str = "length or place";

/// Plans at the limits, and random ones; all from power-on.
pub fn plans(sides: &Sides, random: &mut Random, times: u32) -> Counted {
    let mut limits = limit_plans::alone();
    limits.extend(limit_plans::in_turn());
    limits.extend(limit_plans::last_after_waits());
    limits.extend(limit_plans::exposures_after_settings());
    limits.extend(limit_plans::of_every_word_count());
    let mut count = 0;
    for orders in &limits {
        count += ListedCase::new(orders::plan(orders), Room::Every).compare(sides)?;
    }
    for _ in 0..1_000 * times {
        let accepted = orders::plan(&any_or_extreme_orders(random));
        count += ListedCase::new(accepted, Room::Every).compare(sides)?;
        let any = any_plan(random);
        count += ListedCase::new(any, Room::any(random)).compare(sides)?;
    }
    Ok(count)
}

/// A plan, and how many places there are for its listing.
#[derive(Clone)]
struct ListedCase {
    plan: Vec<u8>,
    room: Room,
}

impl ListedCase {
    fn new(plan: Vec<u8>, room: Room) -> ListedCase {
        ListedCase { plan, room }
    }

    fn compare(self, sides: &Sides) -> Counted {
        match self.difference(sides) {
            None => Ok(1),
            Some(_) => Err(failure(sides, self)),
        }
    }

    fn list(&self, side: &Functions) -> (u64, Buffer<u8>) {
        let mut text = Buffer::filled(LISTING_LENGTH, NO_BYTE);
        let length = || match paper::listing(&self.plan) {
            refused if refused.starts_with("refused ") => 0,
            listing => listing.len(),
        };
        text.refill(NO_BYTE, self.room.places(length, LISTING_LENGTH));
        let answer = (side.listing)(&states::power_on(), &self.plan, text.lent());
        (answer, text)
    }

    /// What is wrong with the list of one side.
    fn wrong(&self, side: &Functions) -> Option<String> {
        let (answer, text) = self.list(side);
        if answer as u8 != 0 {
            return None;
        }
        let (mut words, mut ticks) = ([0; MOST_WORDS], [0; MOST_WORDS]);
        let translated = (side.translate)(&states::power_on(), &self.plan, &mut words, &mut ticks);
        let (mut read_words, mut read_ticks) = ([0; MOST_WORDS], [0; MOST_WORDS]);
        let listing = written(answer, &text);
        let read = (side.read_list)(listing, &mut read_words, &mut read_ticks);
        let count = translated >> 8 & 0xFFFF;
        if (read, read_words, read_ticks) != (count << 32, words, ticks) {
            return Some(format!("read otherwise than translated: {read:#X}"));
        }
        let (words, ticks) = (&words[..count as usize], &ticks[..count as usize]);
        let inspected = (side.inspection)(words, ticks, &mut vec![0; INSPECTION_LENGTH]);
        match inspected as u32 {
            0 => None,
            findings => Some(format!("inspected with findings: {findings:#X}")),
        }
    }
}

impl Case for ListedCase {
    fn difference(&self, sides: &Sides) -> Option<String> {
        let (answer, text) = self.list(&sides.library);
        let (expected, expected_text) = self.list(&sides.paper);
        lines_differ(written(answer, &text), written(expected, &expected_text))
            .or_else(|| answers_differ(answer, expected, UPPER))
            .or_else(|| difference("text", &text, &expected_text))
            .or_else(|| {
                self.wrong(&sides.library)
                    .map(|what| format!("library {what}"))
            })
            .or_else(|| self.wrong(&sides.paper).map(|what| format!("paper {what}")))
    }

    fn shorter(&self) -> Vec<ListedCase> {
        let rooms = self.room.plainer().into_iter();
        let rooms = rooms.map(|room| ListedCase::new(self.plan.clone(), room));
        let plans = orders::shorter(&self.plan).into_iter();
        let plans = plans.map(|plan| ListedCase::new(plan, self.room));
        rooms.chain(plans).collect()
    }
}

impl fmt::Display for ListedCase {
    fn fmt(&self, out: &mut fmt::Formatter) -> fmt::Result {
        writeln!(out, "listing, {}", orders::describe(&self.plan))?;
        write!(out, "text: {}", self.room)
    }
}
