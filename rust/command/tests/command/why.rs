//! Words that a head takes or ignores at a tick of a list.

use crate::run::*;
use shabgozim::read_list;

const TITLES: &str = "word  outcome     kind         why\n";
/// The cover opens by 81 steps; a mirror set is begun.
const MOVING: &[u8] = b"tick word\n0 12D1\n2 2011\n3 a000\nend 4\n";
/// One word, at a late tick.
const LATE: &[u8] = b"tick word\n4294967294 8000";
/// A list in which words are ignored for every cause.
const IGNORED: &str = include_str!("../../../../examples/lists/ignored.list");
/// The rules of its ignored words, in their order.
const RULES: [&str; 11] = [
    "the cover moves: 2020 ticks left, 20.20 s; no COVER is taken",
    "no kind has the identifier of word 3800",
    "the data of word 1804 are out of the range of CCD DELAY",
    "a mirror word out of turn: SIN L was due",
    "the data of word 6010 are out of the range of COS M",
    "a mirror word out of turn: SIN M was due",
    "the head is busy: 157 ticks left, 1.57 s; only STOP is taken",
    "the head is busy: 156 ticks left, 1.56 s; only STOP is taken",
    "a mirror word out of turn: COS L was due",
    "the head is busy: 1 tick left, 0.01 s; only STOP is taken",
    "the cover moves: 1 tick left, 0.01 s; no COVER is taken",
];

/// Where the word begins in a line of an inspection, and the columns up to what it
/// means.
const WORD_COLUMN: usize = 18;
const COLUMNS: usize = 29;

/// Checks the lines below the titles, for a list that is a file and for one that
/// is read from standard input.
fn asked(list: &[u8], operands: &[&str], status: i32, first: &str, lines: &str) {
    let folder = Folder::new().with("my.list", list);
    let output = format!("{first}\n{TITLES}{lines}");
    let named = [&["why", "my.list"], operands].concat();
    expect(folder.run(&named, b""), status, &output, "");
    let unnamed = [&["why", "-"], operands].concat();
    expect(folder.run(&unnamed, list), status, &output, "");
}

#[test]
fn a_busy_head() {
    asked(
        LOST,
        &["70", "4000", "C000"],
        1,
        "at tick 70, after 4 of 5 words",
        "\
4000  ignored 22  HK           the head is busy: 157 ticks left, 1.57 s; only STOP is taken
C000  taken       STOP
",
    );
    asked(
        LOST,
        &["226", "3800", "c001", "1001"],
        1,
        "at tick 226, after 4 of 5 words",
        "\
3800  ignored 22  unknown      the head is busy: 1 tick left, 0.01 s; only STOP is taken
C001  ignored 22  STOP         the head is busy: 1 tick left, 0.01 s; only STOP is taken
1001  ignored 22  COVER        the head is busy: 1 tick left, 0.01 s; only STOP is taken
",
    );
}

#[test]
fn a_moving_cover() {
    asked(
        MOVING,
        &["1", "1001", "1052", "4000"],
        1,
        "at tick 1, after 1 of 3 words",
        "\
1001  ignored 22  COVER        the cover moves: 2024 ticks left, 20.24 s; no COVER is taken
1052  ignored 24  COVER        the data of word 1052 are out of the range of COVER
4000  taken       HK
",
    );
    asked(
        MOVING,
        &["2024", "1001"],
        1,
        "at tick 2024, after 3 of 3 words",
        "\
1001  ignored 22  COVER        the cover moves: 1 tick left, 0.01 s; no COVER is taken
",
    );
}

#[test]
fn words_that_are_not_allowed() {
    asked(
        LOST,
        &["0", "3800", "1804", "AA00", "0001"],
        1,
        "at tick 0, after 0 of 5 words",
        "\
3800  ignored 23  unknown      no kind has the identifier of word 3800
1804  ignored 24  CCD DELAY    the data of word 1804 are out of the range of CCD DELAY
AA00  ignored 24  WIN Y1       the data of word AA00 are out of the range of WIN Y1
0001  ignored 24  NOP          the data of word 0001 are out of the range of NOP
",
    );
}

#[test]
fn mirror_words_out_of_turn() {
    for (tick, given, due, in_turn) in [
        ("0", "0", "SIN M", "2011"),
        ("1", "1", "SIN L", "A000"),
        ("2", "2", "COS M", "600F"),
        ("69", "3", "COS L", "E0F8"),
    ] {
        let words = ["A000", "600F", "E0F8"];
        let kinds = ["SIN L", "COS M", "COS L"];
        let lines = words.iter().zip(kinds).map(|(word, kind)| {
            let rule = format!("a mirror word out of turn: {due} was due");
            match *word == in_turn {
                true => format!("{word}  taken       {kind}\n"),
                false => format!("{word}  ignored 25  {kind}        {rule}\n"),
            }
        });
        let lines: String = lines.collect();
        let first = format!("at tick {tick}, after {given} of 5 words");
        let operands = [&[tick], &words[..]].concat();
        asked(LOST, &operands, 1, &first, &lines);
    }
}

#[test]
fn each_word_is_asked_about_by_itself() {
    // The head does not get the first word, nor the one that makes it busy.
    asked(
        LOST,
        &["0", "2011", "A000", "8000", "8000"],
        1,
        "at tick 0, after 0 of 5 words",
        "\
2011  taken       SIN M
A000  ignored 25  SIN L        a mirror word out of turn: SIN M was due
8000  taken       START
8000  taken       START
",
    );
}

#[test]
fn taken_words_have_status_0() {
    // The list's own word at that tick has not come yet.
    asked(
        LOST,
        &["227", "4000", "D801"],
        0,
        "at tick 227, after 4 of 5 words",
        "4000  taken       HK\nD801  taken       IR DETECTOR\n",
    );
    let folder = Folder::new().with("lost.list", LOST);
    let script = |tick| format!("\"$0\" why lost.list {tick} 4000 > lines && cat lost.list");
    let list = std::str::from_utf8(LOST).expect("text");
    expect(folder.shell(&script(227)), 0, list, "");
    expect(folder.shell(&script(226)), 1, "", "");
}

#[test]
fn ticks_far_from_the_words() {
    let taken = "8000  taken       START\n1001  taken       COVER\n";
    let last = "4294967295";
    asked(
        MOVING,
        &[last, "8000", "1001"],
        0,
        "at tick 4294967295, after 3 of 3 words",
        taken,
    );
    asked(
        LATE,
        &["4294967294", "8000", "1001"],
        0,
        "at tick 4294967294, after 0 of 1 word",
        taken,
    );
    asked(
        LATE,
        &[last, "0000"],
        1,
        "at tick 4294967295, after 1 of 1 word",
        "\
0000  ignored 22  NOP          the head is busy: 157 ticks left, 1.57 s; only STOP is taken
",
    );
    let none = "at tick 7, after 0 of 0 words";
    asked(b"tick word\n", &["7", "8000", "1001"], 0, none, taken);
}

#[test]
fn a_word_has_the_columns_of_its_inspection_and_its_rule() {
    let list = read_list(IGNORED.as_bytes()).expect("a list");
    let inspected = inspected(IGNORED.as_bytes());
    let folder = Folder::new().with("my.list", IGNORED.as_bytes());
    let mut lines = inspected.lines();
    let mut rules = RULES.into_iter();
    for (given, (tick, word)) in list.ticks.iter().zip(&list.words).enumerate() {
        let number = format!("{:>4} ", given + 2);
        let told = lines.find(|line| line.starts_with(&number));
        let told = &told.expect("a line for each word")[WORD_COLUMN..];
        let columns = told[..COLUMNS].trim_end();
        let is_ignored = columns.contains("  ignored ");
        let rule = match is_ignored {
            true => rules.next().expect("its rule"),
            false => "",
        };
        let line = format!("{columns:COLUMNS$}  {rule}");
        let first = format!(
            "at tick {tick}, after {given} of {} words",
            list.words.len()
        );
        let output = format!("{first}\n{TITLES}{}\n", line.trim_end());
        let ran = folder.run(
            &["why", "my.list", &tick.to_string(), &format!("{word:04X}")],
            b"",
        );
        expect(ran, is_ignored.into(), &output, "");
    }
    assert_eq!(rules.next(), None);
}

#[test]
fn a_refused_list_prints_nothing() {
    for list in [
        &b""[..],
        b"tick word\n0 400\n",
        b"tick word\n1 4000\n1 8000\n",
        b"tick word\nend 0\n0 4000\n",
    ] {
        let folder = Folder::new().with("bad.list", list);
        let told = list_refusal("bad.list", list);
        let named = folder.run(&["why", "bad.list", "0", "4000"], b"");
        expect(named, 1, "", &told);
        let told = list_refusal("standard input", list);
        let unnamed = folder.run(&["why", "-", "0", "4000"], list);
        expect(unnamed, 1, "", &told);
    }
}
