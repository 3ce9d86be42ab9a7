//! The texts of the implementation written from document 01, behind the
//! library's interface.

use super::paper::load;
use paper::list::MOST_LIST_WORDS;
use paper::listing::lines;
use paper::state::STATE_LENGTH;
use paper::{Refusal, State, TextRefusal};

const NOT_READY: u64 = 1;
const TOO_SHORT: u64 = 10;

pub fn listing(state: &[u16], plan: &[u8], text: &mut [u8]) -> u64 {
    let Some(state) = load(state) else {
        return NOT_READY;
    };
    let (mut words, mut ticks) = ([0; MOST_LIST_WORDS], [0; MOST_LIST_WORDS]);
    let done = match paper::translate(&state, plan, &mut words, &mut ticks) {
        Ok(done) => done,
        Err(refusal) => return u64::from(refusal.number) | (refusal.place as u64) << 32,
    };
    let listing = lines(&words[..done.count], &ticks[..done.count], done.end);
    match text.len() < listing.len() {
        true => TOO_SHORT | (listing.len() as u64) << 32,
        false => (store(&listing, text) as u64) << 32,
    }
}

pub fn report(state: &mut [u16], plan: &[u8], text: &mut [u8]) -> u64 {
    let Ok(places) = <&mut [u16; STATE_LENGTH]>::try_from(state) else {
        return NOT_READY;
    };
    let mut head = State::from_array(places);
    match paper::report(&mut head, plan) {
        Err(refusal) => u64::from(refusal.number) | (refusal.place as u64) << 32,
        Ok(report) if text.len() < report.len() => TOO_SHORT | (report.len() as u64) << 32,
        Ok(report) => {
            *places = head.to_array();
            (store(&report, text) as u64) << 32
        }
    }
}

pub fn refusal(number: u8, place: u32, plan: &[u8], text: &mut [u8]) -> u32 {
    let refusal = Refusal {
        number: number.into(),
        place: place as usize,
        count: None,
    };
    store_line(refusal.in_words(plan), text)
}

pub fn read_list(text: &[u8], words: &mut [u16], ticks: &mut [u32]) -> u64 {
    let list = match paper::read_list(text) {
        Ok(list) => list,
        Err(refusal) => return u64::from(refusal.number) | (refusal.line as u64) << 32,
    };
    let length = list.words.len();
    if words.len() < length || ticks.len() < length {
        return TOO_SHORT | (length as u64) << 32;
    }
    words[..length].copy_from_slice(&list.words);
    ticks[..length].copy_from_slice(&list.ticks);
    (length as u64) << 32
}

pub fn inspection(words: &[u16], ticks: &[u32], text: &mut [u8]) -> u64 {
    let inspected = match paper::inspection(words, ticks) {
        Ok(inspected) => inspected,
        Err(number) => return number.into(),
    };
    let length = inspected.text.len();
    let packed = (inspected.findings as u64) << 8 | (length as u64) << 32;
    if text.len() < length {
        return TOO_SHORT | packed;
    }
    store(&inspected.text, text);
    packed
}

pub fn list_refusal(number: u8, line: u32, text: &mut [u8]) -> u32 {
    let refusal = TextRefusal {
        number: number.into(),
        line: line as usize,
    };
    store_line(refusal.in_words(), text)
}

pub fn upper_bytes(text: &mut [u8]) -> u64 {
    let table = paper::upper_bytes();
    let length = (table.len() as u64) << 32;
    match text.len() < table.len() {
        true => TOO_SHORT | length,
        false => {
            store(&table, text);
            length
        }
    }
}

/// Writes a line and its newline; gives their length, or 0 where there is no
/// line or no room for it.
pub fn store_line(line: String, text: &mut [u8]) -> u32 {
    match line {
        none if none.is_empty() => 0,
        line if text.len() <= line.len() => 0,
        line => store(&format!("{line}\n"), text) as u32,
    }
}

/// Writes a text to the first places; gives its length.
fn store(text: &str, places: &mut [u8]) -> usize {
    places[..text.len()].copy_from_slice(text.as_bytes());
    text.len()
}
