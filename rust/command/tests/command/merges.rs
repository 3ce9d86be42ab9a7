//! The lists of two operators that are merged, and those that are not.

use crate::run::*;
use std::ffi::OsStr;
use std::os::unix::ffi::OsStrExt;
use std::process::Command;

const CCD: &[u8] = b"tick word\n0 2864\n4 9832\n9 9864\n";
/// Small letters, an end, and no newline after it.
const INFRARED: &[u8] = b"tick word\n1 2011\n2 a000\n3 600f\n5 e0f8\nend 72";
const MERGED: &str = "tick word\n0 2864\n1 2011\n2 A000\n3 600F\n4 9832\n5 E0F8\n9 9864\n";
/// Its ticks are the last two of `CCD`.
const SAME_TICK: &[u8] = b"tick word\n4 08C8\n9 08C8\n";
const BAD: &[u8] = b"tick word\n0 2864\n4 9832\n4 9864\n";

fn folder() -> Folder {
    Folder::new()
        .with("ccd.list", CCD)
        .with("infrared.list", INFRARED)
        .with("same.list", SAME_TICK)
        .with("bad.list", BAD)
}

/// 256 words, at every other tick from the first on.
fn long(first: usize) -> Vec<u8> {
    let lines = (0..256).map(|place| format!("{} 0000\n", first + 2 * place));
    format!("tick word\n{}", lines.collect::<String>()).into()
}

#[test]
fn two_lists_are_merged() {
    let folder = folder();
    for (arguments, input) in [
        (["merge", "ccd.list", "infrared.list"], &b""[..]),
        (["merge", "-", "infrared.list"], CCD),
        (["merge", "ccd.list", "-"], INFRARED),
        (["merge", "infrared.list", "ccd.list"], b""),
    ] {
        expect(folder.run(&arguments, input), 0, MERGED, "");
    }
    let after_dashes = ["merge", "--", "ccd.list", "-"];
    expect(folder.run(&after_dashes, INFRARED), 0, MERGED, "");
}

#[test]
fn a_merged_list_is_inspected() {
    let both = folder().shell("\"$0\" merge ccd.list infrared.list | \"$0\" inspect");
    expect(both, 0, &inspected(MERGED.as_bytes()), "");
}

#[test]
fn empty_lists_are_merged() {
    let folder = folder().with("empty.list", b"tick word\nend 0\n");
    let merged = |ccd, infrared| folder.run(&["merge", ccd, infrared], b"");
    expect(merged("empty.list", "empty.list"), 0, "tick word\n", "");
    let list = std::str::from_utf8(CCD).expect("text");
    expect(merged("ccd.list", "empty.list"), 0, list, "");
    expect(merged("empty.list", "ccd.list"), 0, list, "");
}

#[test]
fn the_longest_lists_are_merged() {
    let folder = Folder::new().with("even", &long(0)).with("odd", &long(1));
    let lines: String = (0..512).map(|tick| format!("{tick} 0000\n")).collect();
    let merged = format!("tick word\n{lines}");
    expect(folder.run(&["merge", "odd", "even"], b""), 0, &merged, "");
    // They are more words than a list may have.
    let told = list_refusal("standard input", merged.as_bytes());
    let inspected = folder.shell("\"$0\" merge even odd | \"$0\" inspect");
    expect(inspected, 1, "", &told);
}

#[test]
fn a_refused_list_prints_nothing() {
    let folder = folder();
    let rule = "refused 52: the ticks of a list do not rise (line 4)";
    for (arguments, input, name) in [
        (["merge", "bad.list", "infrared.list"], &b""[..], "bad.list"),
        (["merge", "ccd.list", "bad.list"], b"", "bad.list"),
        (["merge", "-", "infrared.list"], BAD, "standard input"),
        (["merge", "ccd.list", "-"], BAD, "standard input"),
        // The CCD operator's is judged first.
        (["merge", "bad.list", "-"], b"", "bad.list"),
        // Before ticks are compared.
        (["merge", "same.list", "bad.list"], b"", "bad.list"),
    ] {
        let told = format!("shabgozim: {name}: {rule}\n");
        expect(folder.run(&arguments, input), 1, "", &told);
    }
    let kept = folder.shell("\"$0\" merge bad.list ccd.list > both && cat both");
    let told = format!("shabgozim: bad.list: {rule}\n");
    expect(kept, 1, "", &told);
}

#[test]
fn every_refusal_of_a_list() {
    let many = [&long(0)[..], b"600 0000\n"].concat();
    for list in [
        &b""[..],
        b"tick word\n0 400\n",
        &many,
        b"tick word\nend 0\n0 4000\n",
        &[b'x'; 8193],
    ] {
        let folder = folder().with("my.list", list);
        let told = list_refusal("my.list", list);
        expect(
            folder.run(&["merge", "my.list", "ccd.list"], b""),
            1,
            "",
            &told,
        );
        expect(
            folder.run(&["merge", "ccd.list", "my.list"], b""),
            1,
            "",
            &told,
        );
    }
    let told = "shabgozim: /dev/zero: refused 96: more than 8,192 bytes (line 1)\n";
    let endless = ["merge", "ccd.list", "/dev/zero"];
    expect(folder().run(&endless, b""), 1, "", told);
}

#[test]
fn the_first_tick_that_both_have_is_told() {
    let folder = folder();
    let rule = "refused 53: the same tick in both lists";
    let names = "shabgozim: ccd.list, same.list";
    let told = format!("{names}: {rule} (tick 4, lines 3 and 2)\n");
    expect(
        folder.run(&["merge", "ccd.list", "same.list"], b""),
        1,
        "",
        &told,
    );
    let told = format!("shabgozim: standard input, ccd.list: {rule} (tick 4, lines 2 and 3)\n");
    expect(
        folder.run(&["merge", "-", "ccd.list"], SAME_TICK),
        1,
        "",
        &told,
    );
    let told = format!("shabgozim: ccd.list, ccd.list: {rule} (tick 0, lines 2 and 2)\n");
    expect(
        folder.run(&["merge", "ccd.list", "ccd.list"], b""),
        1,
        "",
        &told,
    );
}

#[test]
fn the_last_ticks_are_the_same() {
    let mut even = String::from_utf8(long(0)).expect("text");
    even += "end 600\n";
    let odd = String::from_utf8(long(1)).expect("text");
    let odd = odd.replace("\n511 ", "\n510 ");
    let folder = Folder::new()
        .with("even", even.as_bytes())
        .with("odd", odd.as_bytes());
    let told = "shabgozim: even, odd: refused 53: the same tick in both lists \
                (tick 510, lines 257 and 257)\n";
    expect(folder.run(&["merge", "even", "odd"], b""), 1, "", told);
}

#[test]
fn what_cannot_be_read_has_status_2() {
    let folder = folder();
    let told = "shabgozim: none: No such file or directory\n";
    expect(folder.run(&["merge", "none", "ccd.list"], b""), 2, "", told);
    expect(folder.run(&["merge", "ccd.list", "none"], b""), 2, "", told);
    expect(folder.run(&["merge", "none", "other"], b""), 2, "", told);
    // Both are read before either is judged.
    expect(folder.run(&["merge", "bad.list", "none"], b""), 2, "", told);
    let told = "shabgozim: .: Is a directory\n";
    expect(folder.run(&["merge", "ccd.list", "."], b""), 2, "", told);
}

#[test]
fn a_name_that_is_no_text() {
    let name = OsStr::from_bytes(b"\xFF.list");
    let folder = folder().with(name, SAME_TICK);
    let mut command = Command::new(PROGRAM);
    let ran = folder.finish(command.args(["merge", "ccd.list"]).arg(name), b"");
    assert_eq!((ran.status.code(), ran.stdout.len()), (Some(1), 0));
    assert!(ran
        .stderr
        .starts_with(b"shabgozim: ccd.list, \xFF.list: refused 53: "));
}
