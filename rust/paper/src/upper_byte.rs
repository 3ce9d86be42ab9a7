//! Words read by their upper byte: a second decoder, and a table of the upper
//! bytes for checking words by eye.

use crate::words::{decode, judge, Decoded, Kind, KINDS, KIND_COUNT};

/// How many upper bytes a kind has: its six identifier bits leave two data
/// bits in the byte.
const BYTES_OF_A_KIND: usize = 4;

/// How many bytes stand together in the printed table.
const BYTES_IN_A_GROUP: u8 = 16;

const TITLES: &str = "byte  kind          allowed words";

/// The kind of each of the 256 upper bytes, if it has one.
const KIND_OF_UPPER_BYTE: [Option<Kind>; 256] = kinds_by_upper_byte();

const fn kinds_by_upper_byte() -> [Option<Kind>; 256] {
    let mut table = [None; 256];
    let mut index = 0;
    while index < KIND_COUNT {
        let first = (KINDS[index].word(0) >> 8) as usize;
        let mut byte = first;
        while byte < first + BYTES_OF_A_KIND {
            table[byte] = Some(KINDS[index]);
            byte += 1;
        }
        index += 1;
    }
    table
}

/// Finds the kind of a word by its upper byte, and its data by that kind; the
/// same as [`decode`] finds.
pub fn decode_by_byte(word: u16) -> Decoded {
    judge(KIND_OF_UPPER_BYTE[(word >> 8) as usize], word)
}

/// The kind and the allowed words of every upper byte, laid out for reading.
pub fn upper_bytes() -> String {
    let lines = (0..=u8::MAX).map(|byte| {
        let begins_group = byte % BYTES_IN_A_GROUP == 0;
        let gap = if begins_group { "\n" } else { "" };
        format!("{gap}{}\n", line(byte))
    });
    format!("{TITLES}\n{}", lines.collect::<String>())
}

fn line(byte: u8) -> String {
    let kind = KIND_OF_UPPER_BYTE[usize::from(byte)].map_or("unknown", Kind::name);
    let words = words_text(&runs(byte));
    format!("{byte:02X}    {kind:11}  {words}")
}

/// First and last word of each run of allowed words with this upper byte.
fn runs(byte: u8) -> Vec<(u16, u16)> {
    let words = (0..=u8::MAX).map(|low| u16::from_be_bytes([byte, low]));
    let is_allowed = |word: &u16| matches!(decode(*word), Decoded::Allowed { .. });
    let mut runs: Vec<(u16, u16)> = Vec::new();
    for word in words.filter(is_allowed) {
        match runs.last_mut() {
            Some((_, last)) if *last + 1 == word => *last = word,
            _ => runs.push((word, word)),
        }
    }
    runs
}

/// The runs, each after a space.
fn words_text(runs: &[(u16, u16)]) -> String {
    if runs.is_empty() {
        return String::from(" none");
    }
    runs.iter().map(run_text).collect()
}

fn run_text(&(first, last): &(u16, u16)) -> String {
    if first == last {
        format!(" {first:04X}")
    } else {
        format!(" {first:04X}-{last:04X}")
    }
}
