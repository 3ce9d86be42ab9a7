//! Steps by which a list of timed words is made shorter or plainer.

use crate::list_case::{ListCase, ROOM};
use crate::states;
use std::ops::Range;

/// Cases with fewer words or ticks, nearer ticks, lesser words, a state nearer
/// to power-on, or the usual room.
pub fn shorter(case: &ListCase) -> Vec<ListCase> {
    let mut cases = fewer(case);
    cases.extend(plainer(case));
    let states = states::shorter(&case.state).into_iter();
    cases.extend(states.map(|state| ListCase {
        state,
        ..case.clone()
    }));
    if length(case) <= ROOM {
        let ticks = nearer_ticks(&case.ticks).into_iter();
        let ticks = ticks.chain(lesser_ticks(&case.ticks));
        cases.extend(ticks.map(|ticks| with_ticks(case, ticks)));
        let words = lesser_words(&case.words).into_iter();
        cases.extend(words.map(|words| with_words(case, words)));
    }
    cases
}

/// The length of the longer of the two lists.
fn length(case: &ListCase) -> usize {
    case.words.len().max(case.ticks.len())
}

fn with_ticks(case: &ListCase, ticks: Vec<u32>) -> ListCase {
    ListCase {
        ticks,
        ..case.clone()
    }
}

fn with_words(case: &ListCase, words: Vec<u16>) -> ListCase {
    ListCase {
        words,
        ..case.clone()
    }
}

/// Words left out with their ticks, many and then few; then the last word
/// alone, and the last tick alone.
fn fewer(case: &ListCase) -> Vec<ListCase> {
    let mut cases = Vec::new();
    for places in parts(length(case)) {
        cases.push(without(case, places.clone()));
        if case.room != ROOM {
            let room = case.room.saturating_sub(places.len());
            let fewer = without(case, places);
            cases.push(ListCase { room, ..fewer });
        }
    }
    if let [words @ .., _] = &case.words[..] {
        cases.push(with_words(case, words.to_vec()));
    }
    if let [ticks @ .., _] = &case.ticks[..] {
        cases.push(with_ticks(case, ticks.to_vec()));
    }
    cases
}

/// Halves, quarters and so on down to single places; of a very long list only
/// the first and the last such part.
pub fn parts(length: usize) -> Vec<Range<usize>> {
    let mut parts = Vec::new();
    let mut size = length.div_ceil(2);
    while size > 0 {
        let mut starts: Vec<usize> = (0..length).step_by(size).collect();
        if length > ROOM {
            starts = vec![0, length - size];
        }
        parts.extend(
            starts
                .iter()
                .map(|&start| start..(start + size).min(length)),
        );
        size = match size {
            1 => 0,
            _ => size.div_ceil(2),
        };
    }
    parts
}

fn without(case: &ListCase, places: Range<usize>) -> ListCase {
    let mut shorter = case.clone();
    let within = |length: usize| places.start.min(length)..places.end.min(length);
    shorter.words.drain(within(case.words.len()));
    shorter.ticks.drain(within(case.ticks.len()));
    shorter
}

/// Every tick, every word or the room made as plain as can be.
fn plainer(case: &ListCase) -> Vec<ListCase> {
    let mut cases = Vec::new();
    let neighbouring: Vec<u32> = (0..case.ticks.len() as u32).collect();
    if sum(&neighbouring) < sum(&case.ticks) {
        cases.push(with_ticks(case, neighbouring));
    }
    if case.words.iter().any(|&word| word != 0) {
        cases.push(with_words(case, vec![0; case.words.len()]));
    }
    if case.room != ROOM {
        let room = ROOM;
        cases.push(ListCase {
            room,
            ..case.clone()
        });
    }
    cases
}

fn sum(ticks: &[u32]) -> u64 {
    ticks.iter().map(|&tick| u64::from(tick)).sum()
}

/// Ticks with one gap shorter, the later ticks moved along; before the first
/// tick there is a gap from 0.
fn nearer_ticks(ticks: &[u32]) -> Vec<Vec<u32>> {
    let mut lists = Vec::new();
    let mut before = None;
    for (place, &tick) in ticks.iter().enumerate() {
        let gap = tick.saturating_sub(before.unwrap_or(0));
        let least = u32::from(before.is_some());
        let gaps = [least, gap / 2, gap.saturating_sub(1)];
        let gaps = gaps.into_iter().filter(|less| (least..gap).contains(less));
        lists.extend(gaps.filter_map(|less| moved(ticks, place, gap - less)));
        before = Some(tick);
    }
    lists
}

/// The ticks from a place on made less, where all of them can be.
fn moved(ticks: &[u32], place: usize, by: u32) -> Option<Vec<u32>> {
    let (first, later) = ticks.split_at(place);
    let later: Option<Vec<u32>> = later.iter().map(|tick| tick.checked_sub(by)).collect();
    Some([first, &later?].concat())
}

/// Ticks with one of them less.
fn lesser_ticks(ticks: &[u32]) -> Vec<Vec<u32>> {
    let mut lists = Vec::new();
    for (place, &tick) in ticks.iter().enumerate() {
        let less = [0, tick / 2, tick.saturating_sub(1)];
        for less in less.into_iter().filter(|&less| less < tick) {
            let mut lesser = ticks.to_vec();
            lesser[place] = less;
            lists.push(lesser);
        }
    }
    lists
}

/// Words with a NOP or less data in the place of one of them.
fn lesser_words(words: &[u16]) -> Vec<Vec<u16>> {
    let mut lists = Vec::new();
    for (place, &word) in words.iter().enumerate() {
        let (identifier, data) = (word & 0xFC00, word & 0x03FF);
        let data = [0, data / 2, data.saturating_sub(1)];
        let less = data.map(|data| identifier | data);
        for less in [0].into_iter().chain(less).filter(|&less| less < word) {
            let mut lesser = words.to_vec();
            lesser[place] = less;
            lists.push(lesser);
        }
    }
    lists
}
