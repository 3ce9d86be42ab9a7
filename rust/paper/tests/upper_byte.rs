//! Words read by their upper byte.

use paper::{decode, decode_by_byte, upper_bytes, Decoded, Kind};
use std::ops::RangeInclusive;

/// Where a byte's line has its kind, and where its words begin.
const KIND_COLUMNS: RangeInclusive<usize> = 6..=16;
const WORDS_COLUMN: usize = 20;

/// The line of each upper byte, at its index.
fn byte_lines(table: &str) -> Vec<&str> {
    let below_title = table.lines().skip(1);
    let lines: Vec<&str> = below_title.filter(|line| !line.is_empty()).collect();
    assert_eq!(lines.len(), 256);
    lines
}

/// The runs that a byte's line prints.
fn runs(line: &str) -> Vec<RangeInclusive<u16>> {
    match &line[WORDS_COLUMN..] {
        "none" => Vec::new(),
        words => words.split(' ').map(run).collect(),
    }
}

fn run(text: &str) -> RangeInclusive<u16> {
    match text.split_once('-') {
        None => hex(text)..=hex(text),
        Some((first, last)) => {
            assert!(hex(first) < hex(last), "{text}");
            hex(first)..=hex(last)
        }
    }
}

/// The word that four upper-case digits write.
fn hex(text: &str) -> u16 {
    let word = u16::from_str_radix(text, 16).expect("a word");
    assert_eq!(format!("{word:04X}"), text);
    word
}

fn is_allowed(word: u16) -> bool {
    matches!(decode(word), Decoded::Allowed { .. })
}

/// The kind by the identifier alone.
fn kind(word: u16) -> Option<Kind> {
    match decode(word) {
        Decoded::Allowed { kind, .. } | Decoded::OutOfRange { kind } => Some(kind),
        Decoded::Unknown => None,
    }
}

#[test]
fn the_two_decoders_agree() {
    for word in 0..=u16::MAX {
        assert_eq!(decode_by_byte(word), decode(word), "{word:04X}");
    }
}

#[test]
fn lines_of_the_table() {
    let table = upper_bytes();
    for (byte, line) in [
        (0x00, "00    NOP           0000"),
        (0x04, "04    unknown       none"),
        (0x10, "10    COVER         1000-1051 1080-10D1"),
        (0x18, "18    CCD DELAY     1805-18FF"),
        (0x1B, "1B    CCD DELAY     1B00-1BFF"),
        (0x31, "31    VDETCOM L     none"),
        (0xD8, "D8    IR DETECTOR   D800-D801"),
        (0xFF, "FF    unknown       none"),
    ] {
        assert_eq!(byte_lines(&table)[byte], line);
    }
}

#[test]
fn layout_of_the_table() {
    let table = upper_bytes();
    let lines: Vec<&str> = table.lines().collect();
    assert_eq!(lines.len(), 273);
    assert_eq!(lines[0], "byte  kind          allowed words");
    for (group, lines) in lines[1..].chunks(17).enumerate() {
        assert_eq!(lines[0], "");
        for (byte, line) in (16 * group..).zip(&lines[1..]) {
            assert!(line.starts_with(&format!("{byte:02X}    ")), "{line}");
        }
    }
}

#[test]
fn ends_of_lines() {
    let table = upper_bytes();
    assert!(table.ends_with('\n'));
    assert!(!table.contains('\r'));
    assert!(table.split('\n').all(|line| !line.ends_with(' ')));
}

#[test]
fn the_kind_of_every_word_is_that_of_its_line() {
    let table = upper_bytes();
    let lines = byte_lines(&table);
    for word in 0..=u16::MAX {
        let line = lines[usize::from(word >> 8)];
        let name = kind(word).map_or("unknown", Kind::name);
        assert_eq!(line[KIND_COLUMNS], format!("{name:11}"), "{word:04X}");
    }
}

#[test]
fn the_runs_have_nine_thousand_one_hundred_and_thirty_three_words() {
    let table = upper_bytes();
    let runs = byte_lines(&table).into_iter().flat_map(runs);
    assert_eq!(runs.map(|run| run.count()).sum::<usize>(), 9133);
}

#[test]
fn a_word_is_in_a_run_of_its_line_exactly_when_it_is_allowed() {
    let table = upper_bytes();
    let lines: Vec<_> = byte_lines(&table).into_iter().map(runs).collect();
    for word in 0..=u16::MAX {
        let runs = &lines[usize::from(word >> 8)];
        let printed = runs.iter().any(|run| run.contains(&word));
        assert_eq!(printed, is_allowed(word), "{word:04X}");
    }
}

#[test]
fn runs_keep_to_their_byte_rise_and_leave_no_neighbours() {
    let table = upper_bytes();
    for (byte, line) in (0..).zip(byte_lines(&table)) {
        let runs = runs(line);
        for run in &runs {
            assert_eq!((run.start() >> 8, run.end() >> 8), (byte, byte), "{line}");
        }
        for pair in runs.windows(2) {
            assert!(pair[0].end() + 1 < *pair[1].start(), "{line}");
        }
    }
}
