//! The lists of the two operators, merged into one.

use crate::texts::{PairRefusal, Text};
use shabgozim::{merge_texts, read_list, MergeRefusal, MergeTextsRefusal, Operator};

/// The line of a list's first word.
const FIRST_WORD_LINE: usize = 2;
/// What the reader of lists says of ticks that do not rise.
const TICK_NOT_ABOVE: u8 = 93;

/// The merged list of the CCD operator's list and the infrared operator's.
pub fn merged([ccd, infrared]: [&[u8]; 2]) -> Result<Text, PairRefusal> {
    let merged = merge_texts(ccd, infrared).map_err(|refusal| PairRefusal {
        about: about(refusal),
        words: in_words(refusal, ccd, infrared),
    });
    Ok(Text::done(merged?))
}

/// A refusal in words, with its place. Ticks that do not rise are refused as
/// merging refuses them, at the line where the reader found it.
fn in_words(refusal: MergeTextsRefusal, ccd: &[u8], infrared: &[u8]) -> String {
    match refusal {
        MergeTextsRefusal::NoList(_, found) if found.number == TICK_NOT_ABOVE => {
            format!(
                "{} (line {})",
                MergeRefusal::NotRising.in_words(),
                found.line
            )
        }
        MergeTextsRefusal::NoList(..) => refusal.in_words(),
        MergeTextsRefusal::SameTick => refusal.in_words() + &same_tick(ccd, infrared),
    }
}

/// The places of the lists that a refusal is about.
fn about(refusal: MergeTextsRefusal) -> &'static [usize] {
    match refusal {
        MergeTextsRefusal::NoList(Operator::Ccd, _) => &[0],
        MergeTextsRefusal::NoList(Operator::Infrared, _) => &[1],
        MergeTextsRefusal::SameTick => &[0, 1],
    }
}

/// The first tick that both lists have, and its line in each; empty where there
/// is none.
fn same_tick(ccd: &[u8], infrared: &[u8]) -> String {
    let ticks = |list| read_list(list).map_or(Vec::new(), |list| list.ticks);
    let infrared = ticks(infrared);
    let lines = ticks(ccd).into_iter().zip(FIRST_WORD_LINE..);
    for (tick, line) in lines {
        if let Some(place) = infrared.iter().position(|other| *other == tick) {
            let other = place + FIRST_WORD_LINE;
            return format!(" (tick {tick}, lines {line} and {other})");
        }
    }
    String::new()
}
