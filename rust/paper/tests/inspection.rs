//! Inspections: the stored ones byte for byte, and what they do not show.

use paper::{inspection, read_list, Inspection};
use std::fs;
use std::path::PathBuf;

const FOLDER: &str = concat!(env!("CARGO_MANIFEST_DIR"), "/../../examples/lists");
const LEAST_INSPECTIONS: usize = 12;

#[test]
fn the_stored_inspections() {
    let entries = fs::read_dir(FOLDER).expect("the folder of examples is there");
    let paths = entries.map(|entry| entry.expect("an entry").path());
    let is_list = |path: &PathBuf| path.extension().is_some_and(|end| end == "list");
    let lists: Vec<PathBuf> = paths.filter(is_list).collect();
    for path in &lists {
        let list = fs::read(path).expect("a list");
        let stored = fs::read_to_string(path.with_extension("inspection"));
        let stored = stored.expect("a list has its inspection");
        assert_eq!(printed(&list), stored, "{}", path.display());
    }
    assert!(lists.len() >= LEAST_INSPECTIONS, "{} lists", lists.len());
}

/// What the program prints of a text.
fn printed(text: &[u8]) -> String {
    match read_list(text) {
        Ok(list) => inspect(&list.words, &list.ticks).text,
        Err(refusal) => refusal.in_words() + "\n",
    }
}

fn inspect(words: &[u16], ticks: &[u32]) -> Inspection {
    inspection(words, ticks).expect("a list")
}

/// The lines about the words.
fn about_words(inspection: &Inspection) -> Vec<&str> {
    let lines = inspection.text.lines().skip(1);
    lines.take_while(|line| !line.is_empty()).collect()
}

#[test]
fn an_empty_list() {
    let empty = inspect(&[], &[]);
    assert_eq!(empty.findings, 0);
    assert_eq!(empty.text.lines().count(), 1 + 2 + 7 + 1);
    assert!(empty.text.ends_with(
        "\nwords 0, ignored 0, exposures 0, \
         with an incomplete mirror set 0, while something moved 0\n"
    ));
}

#[test]
fn no_list() {
    assert_eq!(inspection(&[0], &[]), Err(31));
    assert_eq!(inspection(&[0, 0], &[5, 5]), Err(31));
    let ticks: Vec<u32> = (0..257).collect();
    assert_eq!(inspection(&[0; 257], &ticks), Err(31));
    assert!(inspection(&[0; 256], &ticks[..256]).is_ok());
}

#[test]
fn an_exposure_counts_for_each_finding() {
    // A set begun while the mirror and the cover move.
    let found = inspect(&[0x5000, 0x1001, 0x2000, 0x8000, 0x8000], &[0, 1, 2, 3, 4]);
    assert_eq!(found.findings, 3);
    let lines = about_words(&found);
    assert_eq!(
        lines[5..9],
        [
            "   5           3  8000  taken       START        \
             exposure: sine    +0, cosine 4095, length  1.58 s",
            "                                    INCOMPLETE MIRROR SET; received: SIN M",
            "                                    THE MIRROR MOVES for 63 ticks more, 0.63 s",
            "                                    THE COVER MOVES for 23 ticks more,  0.23 s",
        ]
    );
    assert_eq!(
        lines[9..],
        [
            "   6           4  8000  ignored 22  START        start of an acquisition",
            "                                    \
             the head is busy for 157 ticks more and takes only STOP",
            "MIRROR SET LEFT INCOMPLETE; received: SIN M",
        ]
    );
}

#[test]
fn the_first_word_goes_at_once() {
    let late = inspect(&[0x8000, 0x4000], &[4_294_967_137, u32::MAX]);
    assert_eq!(late.findings, 0);
    assert!(about_words(&late)[0].starts_with("   2  4294967137  8000  taken "));
}

#[test]
fn an_ignored_word_keeps_the_set_of_a_busy_head() {
    let words = [0x2000, 0x4000, 0x2000, 0xFFFF, 0xE000];
    let lines = inspect(&words, &[0, 1, 2, 3, 4]).text;
    assert!(!lines.contains("BEGUN ANEW"), "{lines}");
    // The last word finds the head idle.
    assert_eq!(
        lines
            .matches("MIRROR SET DROPPED; received: SIN M\n")
            .count(),
        1
    );
    assert!(lines.contains("  FFFF  ignored 22  unknown      identifier 63, data 1023\n"));
}
