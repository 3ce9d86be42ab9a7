//! Two lists merged on both sides, compared and made shorter.

use crate::buffer::{difference, Buffer};
use crate::reduce::{failure, Case, Counted};
use crate::shorter_lists::parts;
use crate::sides::{Functions, Merged, Sides};
use std::collections::BTreeSet;
use std::fmt;

const WORDS: u64 = 1 << 16;
/// A fill that is no entry of the lists here.
const NO_ENTRY: u64 = 0xAAAA_AAAA_AAAA_AAAA;
/// Stands before and after a list: it would come first, and no tick rises to it.
const MARGIN: u64 = 0;
/// Of a longer list not every entry is shown, nor changed alone.
const MOST_SHOWN: usize = 40;

/// Two lists, and how many places there are for the merged entries.
#[derive(Clone, Debug)]
pub struct MergeCase {
    pub ccd: Vec<u64>,
    pub infrared: Vec<u64>,
    /// Nothing where there is room for every entry.
    pub room: Option<usize>,
}

/// Has both sides merge, with buffers that are used again.
pub struct Merger {
    sides: Sides,
    most: usize,
    lists: [Buffer<u64>; 2],
    library: Buffer<u64>,
    paper: Buffer<u64>,
}

/// An entry of a tick and a word.
pub fn entry(tick: u64, word: u16) -> u64 {
    tick * WORDS + u64::from(word)
}

pub fn tick_and_word(entry: u64) -> (u64, u16) {
    (entry / WORDS, (entry % WORDS) as u16)
}

impl Merger {
    /// For lists of up to so many entries together.
    pub fn new(sides: &Sides, entries: usize) -> Merger {
        let most = entries + 1;
        Merger {
            sides: *sides,
            most,
            lists: [MARGIN; 2].map(|margin| Buffer::filled(most, margin)),
            library: Buffer::filled(most, NO_ENTRY),
            paper: Buffer::filled(most, NO_ENTRY),
        }
    }

    fn answers(&mut self, case: &MergeCase) -> [Merged; 2] {
        let room = case.room.unwrap_or(self.most);
        let [ccd, infrared] = &mut self.lists;
        ccd.refill_with(MARGIN, &case.ccd);
        infrared.refill_with(MARGIN, &case.infrared);
        let merge = |side: &Functions, merged: &mut Buffer<u64>| {
            merged.refill(NO_ENTRY, room);
            (side.merge)(ccd.values(), infrared.values(), merged.lent())
        };
        [
            merge(&self.sides.library, &mut self.library),
            merge(&self.sides.paper, &mut self.paper),
        ]
    }

    /// Compares the answers and every place for entries.
    pub fn compare(&mut self, case: &MergeCase) -> Counted {
        let [answer, expected] = self.answers(case);
        match answer == expected && self.library == self.paper {
            true => Ok(1),
            false => Err(failure(&self.sides, case.clone())),
        }
    }
}

impl MergeCase {
    /// With room for every entry.
    pub fn new(ccd: Vec<u64>, infrared: Vec<u64>) -> MergeCase {
        MergeCase {
            ccd,
            infrared,
            room: None,
        }
    }

    fn entries(&self) -> usize {
        self.ccd.len() + self.infrared.len()
    }

    /// With each list changed in several ways, one list at a time.
    fn with_lists(&self, change: impl Fn(&[u64]) -> Vec<Vec<u64>>) -> Vec<MergeCase> {
        let ccd = change(&self.ccd).into_iter().map(|ccd| MergeCase {
            ccd,
            ..self.clone()
        });
        let infrared = change(&self.infrared).into_iter();
        let infrared = infrared.map(|infrared| MergeCase {
            infrared,
            ..self.clone()
        });
        ccd.chain(infrared).collect()
    }

    /// Fewer entries, in the same room and in less.
    fn fewer(&self) -> Vec<MergeCase> {
        let mut cases = self.with_lists(fewer);
        let rooms = cases.clone().into_iter().filter_map(|case| {
            let fewer = self.entries() - case.entries();
            let room = case.room?.checked_sub(fewer)?;
            Some(MergeCase {
                room: Some(room),
                ..case
            })
        });
        cases.extend(rooms.collect::<Vec<_>>());
        cases
    }

    /// The ticks of both lists counted from 0, without gaps.
    fn without_gaps(&self) -> MergeCase {
        let tick = |&entry: &u64| tick_and_word(entry).0;
        let ticks: BTreeSet<u64> = self.ccd.iter().chain(&self.infrared).map(tick).collect();
        let ticks: Vec<u64> = ticks.into_iter().collect();
        let place = |tick: u64| ticks.partition_point(|&before| before < tick) as u64;
        self.each(|at, word| entry(place(at), word))
    }

    /// With each entry made from its tick and word.
    fn each(&self, change: impl Fn(u64, u16) -> u64) -> MergeCase {
        let change = |&entry: &u64| {
            let (tick, word) = tick_and_word(entry);
            change(tick, word)
        };
        MergeCase {
            ccd: self.ccd.iter().map(change).collect(),
            infrared: self.infrared.iter().map(change).collect(),
            room: self.room,
        }
    }

    fn sum(&self) -> u128 {
        let entries = self.ccd.iter().chain(&self.infrared);
        entries.map(|&entry| u128::from(entry)).sum()
    }

    /// With ticks and words as plain as can be, or more room.
    fn plainer(&self) -> Vec<MergeCase> {
        let mut cases = vec![self.without_gaps(), self.each(|tick, _| entry(tick, 0))];
        if self.entries() <= MOST_SHOWN {
            cases.extend(self.with_lists(lesser));
        }
        cases.retain(|case| case.sum() < self.sum());
        if self.room.is_some() {
            cases.push(MergeCase {
                room: None,
                ..self.clone()
            });
        }
        cases
    }
}

/// Entries left out, many and then few.
fn fewer(list: &[u64]) -> Vec<Vec<u64>> {
    let without = |part: std::ops::Range<usize>| [&list[..part.start], &list[part.end..]].concat();
    parts(list.len()).into_iter().map(without).collect()
}

/// One entry with a lesser tick or another word.
fn lesser(list: &[u64]) -> Vec<Vec<u64>> {
    let mut lists = Vec::new();
    for (at, &given) in list.iter().enumerate() {
        let (tick, word) = tick_and_word(given);
        let ticks = [0, tick / 2, tick.saturating_sub(1)].map(|less| entry(less, word));
        let words = [0, 1].map(|less| entry(tick, less));
        for less in ticks.into_iter().chain(words) {
            let mut lesser = list.to_vec();
            lesser[at] = less;
            lists.push(lesser);
        }
    }
    lists
}

impl Case for MergeCase {
    fn difference(&self, sides: &Sides) -> Option<String> {
        let most = self.entries().max(self.room.unwrap_or(0));
        let mut merger = Merger::new(sides, most);
        let [answer, expected] = merger.answers(self);
        if answer != expected {
            let (answer, expected) = (described(&answer), described(&expected));
            return Some(format!("answer: library {answer}\npaper {expected}"));
        }
        difference("merged", &merger.library, &merger.paper)
    }

    fn shorter(&self) -> Vec<MergeCase> {
        let mut cases = self.fewer();
        cases.extend(self.plainer());
        cases
    }
}

fn described(answer: &Merged) -> String {
    let Merged {
        number,
        rest_of,
        count,
        rest_start,
    } = answer;
    format!("{number}, {count} entries, the rest of {rest_of} from {rest_start}")
}

impl fmt::Display for MergeCase {
    fn fmt(&self, out: &mut fmt::Formatter) -> fmt::Result {
        writeln!(out, "CCD list{}", shown(&self.ccd))?;
        writeln!(out, "infrared list{}", shown(&self.infrared))?;
        match self.room {
            None => write!(out, "with room for every entry"),
            Some(room) => write!(out, "with room for {room} entries"),
        }
    }
}

/// Ticks and words of a list; of a long one the first of them.
fn shown(list: &[u64]) -> String {
    let entries = list.iter().take(MOST_SHOWN).map(|&entry| {
        let (tick, word) = tick_and_word(entry);
        format!(" {tick}:{word:04X}")
    });
    let more = match list.len().checked_sub(MOST_SHOWN) {
        None | Some(0) => String::new(),
        Some(more) => format!(" and {more} more"),
    };
    entries.collect::<String>() + &more
}
