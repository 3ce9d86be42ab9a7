//! Steps by which the text of a list is made shorter or plainer.

use crate::shorter_lists::parts;
use shabgozim::MOST_LIST_BYTES;
use std::collections::BTreeSet;

/// Of a longer text no single bytes are left out or changed.
pub const MOST_BYTES: usize = 400;
const PLAIN: u8 = b'0';
const SPACES: [char; 2] = [' ', '\n'];

/// Texts with fewer lines or bytes, or with plainer bytes.
pub fn shorter(text: &[u8]) -> Vec<Vec<u8>> {
    let mut texts = fewer_lines(text);
    if text.len() <= MOST_BYTES {
        texts.extend(fewer_bytes(text));
        texts.extend(plainer_bytes(text));
        texts.extend(lesser_numbers([text]).into_iter().flatten());
    }
    texts.extend(cut_or_plain(text));
    texts
}

/// Lines left out, many and then few.
fn fewer_lines(text: &[u8]) -> Vec<Vec<u8>> {
    let lines: Vec<&[u8]> = text.split_inclusive(|&byte| byte == b'\n').collect();
    let without = |part: std::ops::Range<usize>| {
        let (before, after) = (&lines[..part.start], &lines[part.end..]);
        [before, after].concat().concat()
    };
    parts(lines.len()).into_iter().map(without).collect()
}

/// Each byte left out.
fn fewer_bytes(text: &[u8]) -> Vec<Vec<u8>> {
    let without = |at: usize| [&text[..at], &text[at + 1..]].concat();
    (0..text.len()).map(without).collect()
}

/// Each digit and letter made 0.
fn plainer_bytes(text: &[u8]) -> Vec<Vec<u8>> {
    let places = (0..text.len()).filter(|&at| can_be_plainer(text[at]));
    let change = |at: usize| {
        let mut plainer = text.to_vec();
        plainer[at] = PLAIN;
        plainer
    };
    places.map(change).collect()
}

fn can_be_plainer(byte: u8) -> bool {
    byte.is_ascii_alphanumeric() && byte != PLAIN
}

/// A number made less wherever it stands in any of these texts.
pub fn lesser_numbers<const N: usize>(texts: [&[u8]; N]) -> Vec<[Vec<u8>; N]> {
    let texts = texts.map(String::from_utf8_lossy);
    let parts = texts.each_ref().map(|text| text.split_inclusive(SPACES));
    let parts = parts.map(Iterator::collect::<Vec<&str>>);
    let numbers = parts.iter().flatten();
    let numbers: BTreeSet<&str> = numbers.map(|part| part.trim_end_matches(SPACES)).collect();
    let mut lesser = Vec::new();
    for number in numbers {
        let value: u64 = number.parse().unwrap_or(0);
        for less in [0, value / 2].into_iter().filter(|&less| less < value) {
            let change = |part: &&str| match part.trim_end_matches(SPACES) == number {
                true => part.replace(number, &less.to_string()),
                false => String::from(*part),
            };
            let changed = |parts: &Vec<&str>| parts.iter().map(change).collect::<String>();
            lesser.push(parts.each_ref().map(|parts| changed(parts).into()));
        }
    }
    lesser
}

/// A text that is too long, by one byte alone; and with all bytes the same.
fn cut_or_plain(text: &[u8]) -> Vec<Vec<u8>> {
    let mut texts = Vec::new();
    if text.len() > MOST_LIST_BYTES + 1 {
        texts.push(text[..=MOST_LIST_BYTES].to_vec());
    }
    if text.iter().any(|&byte| byte != PLAIN) {
        texts.push(vec![PLAIN; text.len()]);
    }
    texts
}
