//! Two operators' lists merged by tick (document 02, request P6), also as
//! texts, and the refusals of that request in words.
//!
//! An entry of a list is one number, tick x 65,536 + word.

use std::collections::BTreeSet;

use crate::operators::NOT_PASSED_ON;
use crate::text_list::{read_list, TextList, TextRefusal};

/// The number of the CCD operator's list.
pub const CCD_LIST: u8 = 0;
/// The number of the infrared operator's list.
pub const INFRARED_LIST: u8 = 1;

const MERGED: u8 = 0;
const NOT_RISING: u8 = 52;
const SAME_TICK: u8 = 53;
const NO_ROOM: u8 = 54;

const WORDS: u64 = 65_536;

/// Two lists merged until one ran out, and the rest of the other.
#[derive(Clone, Debug, PartialEq, Eq)]
pub struct Merged {
    /// The merged part.
    pub entries: Vec<u64>,
    /// The list that the rest is of: 0 CCD, 1 infrared.
    pub list: u8,
    /// Where the rest starts in that list.
    pub start: usize,
}

/// A merge in numbers, whether it was done or refused.
#[derive(Clone, Copy, Debug, PartialEq, Eq)]
pub struct MergeAnswer {
    /// 0, or 52 to 54.
    pub number: u8,
    /// The list that the rest is of: 0 CCD, 1 infrared.
    pub list: u8,
    /// How many entries the merged part has; 0 when refused.
    pub count: usize,
    /// Where the rest starts in its list.
    pub start: usize,
}

/// Why two texts are not merged.
#[derive(Clone, Copy, Debug, PartialEq, Eq)]
pub enum TextsRefusal {
    /// The text of one list (0 CCD, 1 infrared) is refused.
    Text { list: u8, refusal: TextRefusal },
    /// Both lists have a tick in common: number 53.
    SameTick,
}

impl TextsRefusal {
    /// 91 to 96 for a text, or 53.
    pub fn number(&self) -> u16 {
        match self {
            TextsRefusal::Text { refusal, .. } => refusal.number,
            TextsRefusal::SameTick => u16::from(SAME_TICK),
        }
    }
}

/// Merges two lists by tick until one runs out; the merged part has room for
/// so many entries. When both are empty, the rest is of the infrared list.
///
/// Refused are, in this order: 52 a list whose ticks don't strictly rise, 53
/// the same tick in both, 54 too little room for the merged part.
pub fn merge(ccd: &[u64], infrared: &[u64], room: usize) -> Result<Merged, u8> {
    if !rises(ccd) || !rises(infrared) {
        return Err(NOT_RISING);
    }
    if have_a_tick_in_common(ccd, infrared) {
        return Err(SAME_TICK);
    }
    let merged = until_one_runs_out(ccd, infrared);
    match merged.entries.len() <= room {
        true => Ok(merged),
        false => Err(NO_ROOM),
    }
}

/// The numbers of a merge. When it is refused, the rest is the empty end of
/// the infrared list.
pub fn merge_answer(ccd: &[u64], infrared: &[u64], room: usize) -> MergeAnswer {
    match merge(ccd, infrared, room) {
        Ok(merged) => MergeAnswer {
            number: MERGED,
            list: merged.list,
            count: merged.entries.len(),
            start: merged.start,
        },
        Err(number) => MergeAnswer {
            number,
            list: INFRARED_LIST,
            count: 0,
            start: infrared.len(),
        },
    }
}

/// The list whose last tick is earlier runs out first, an empty one at once.
/// What both lists have up to that tick is merged.
fn until_one_runs_out(ccd: &[u64], infrared: &[u64]) -> Merged {
    // No tick at all is before every tick.
    let (ccd_last, infrared_last) = (last_tick(ccd), last_tick(infrared));
    let (list, other) = match ccd_last <= infrared_last {
        true => (INFRARED_LIST, infrared),
        false => (CCD_LIST, ccd),
    };
    let end = ccd_last.min(infrared_last);
    let is_merged = |entry: &&u64| Some(tick_of(**entry)) <= end;
    let merged = ccd.iter().chain(infrared).filter(is_merged);
    Merged {
        entries: by_tick(merged.copied().collect()),
        list,
        start: other.iter().filter(is_merged).count(),
    }
}

fn tick_of(entry: u64) -> u64 {
    entry / WORDS
}

fn last_tick(list: &[u64]) -> Option<u64> {
    list.last().map(|&entry| tick_of(entry))
}

fn by_tick(mut entries: Vec<u64>) -> Vec<u64> {
    entries.sort_by_key(|&entry| tick_of(entry));
    entries
}

/// Every tick is above the one before.
fn rises(list: &[u64]) -> bool {
    list.windows(2)
        .all(|pair| tick_of(pair[0]) < tick_of(pair[1]))
}

fn have_a_tick_in_common(ccd: &[u64], infrared: &[u64]) -> bool {
    let ticks = |list: &[u64]| -> BTreeSet<u64> { list.iter().copied().map(tick_of).collect() };
    !ticks(ccd).is_disjoint(&ticks(infrared))
}

/// The text of two lists, given as texts, merged to the end of both. It has
/// no end line.
///
/// The CCD text is judged first, then the infrared one (91 to 96), then that
/// they have no tick in common (53).
pub fn merge_texts(ccd_text: &[u8], infrared_text: &[u8]) -> Result<Vec<u8>, TextsRefusal> {
    let ccd = entries_of(CCD_LIST, ccd_text)?;
    let infrared = entries_of(INFRARED_LIST, infrared_text)?;
    if have_a_tick_in_common(&ccd, &infrared) {
        return Err(TextsRefusal::SameTick);
    }
    let lines = by_tick([ccd, infrared].concat()).into_iter().map(line);
    let text = format!("tick word\n{}", lines.collect::<String>());
    Ok(text.into_bytes())
}

/// The entries of a text.
fn entries_of(list: u8, text: &[u8]) -> Result<Vec<u64>, TextsRefusal> {
    let refused = |refusal| TextsRefusal::Text { list, refusal };
    let TextList { words, ticks } = read_list(text).map_err(refused)?;
    let timed = ticks.into_iter().zip(words);
    let entries = timed.map(|(tick, word)| u64::from(tick) * WORDS + u64::from(word));
    Ok(entries.collect())
}

fn line(entry: u64) -> String {
    let (tick, word) = (tick_of(entry), entry % WORDS);
    format!("{tick} {word:04X}\n")
}

/// A refusal of request P6 in words, one line with its newline; none for a
/// number other than 51 to 54.
pub fn operator_refusal(number: u8) -> Option<Vec<u8>> {
    let reason = match number {
        NOT_PASSED_ON => {
            "the word is not passed on: not allowed, not in the operator's group, \
             or the head is busy"
        }
        NOT_RISING => "the ticks of a list do not rise",
        SAME_TICK => "the same tick in both lists",
        NO_ROOM => "no room for the merged part",
        _ => return None,
    };
    Some(format!("refused {number}: {reason}\n").into_bytes())
}
