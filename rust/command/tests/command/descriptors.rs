//! Standard input, output and error that are closed, full or without a reader.

use crate::run::*;
use shabgozim::upper_bytes;
use std::fs;
use std::io;
use std::process::{Command, Stdio};

/// A list that can be merged with `LISTED`.
const LATER: &[u8] = b"tick word\n300 9832\n";
const INPUT_CLOSED: &str = "shabgozim: standard input: Bad file descriptor\n";
const OUTPUT_CLOSED: &str = "shabgozim: standard output: Bad file descriptor\n";
const OUTPUT_FULL: &str = "shabgozim: standard output: No space left on device\n";

fn folder() -> Folder {
    Folder::new()
        .with("good.plan", GOOD)
        .with("bad.plan", TOO_SHORT)
        .with("my.list", LISTED.as_bytes())
        .with("lost.list", LOST)
        .with("later.list", LATER)
        .with("my.map", map().bytes())
}

#[test]
fn a_closed_input() {
    let folder = folder();
    for subcommand in [
        "list",
        "list -",
        "report",
        "report -",
        "inspect",
        "why - 70 4000",
        "merge - my.list",
        "merge my.list -",
        "pixel-map",
        "pixel-map -",
    ] {
        let script = format!("\"$0\" {subcommand} <&-");
        expect(folder.shell(&script), 2, "", INPUT_CLOSED);
    }
    let after_another = folder.shell("\"$0\" report good.plan - <&-");
    expect(after_another, 2, &reports(&[GOOD]), INPUT_CLOSED);
    // Where it is not read, it may be closed.
    expect(folder.shell("\"$0\" list good.plan <&-"), 0, LISTED, "");
    let table = upper_bytes();
    expect(folder.shell("\"$0\" upper-bytes <&-"), 0, &table, "");
    let requests = folder.run(&["requests", "4401"], b"").stdout;
    let with_closed_input = folder.shell("\"$0\" requests 4401 <&-");
    expect_bytes(with_closed_input, 0, &requests, "");
    // An input that is open for writing alone cannot be read either.
    expect(folder.shell("\"$0\" list 0>&1"), 2, "", INPUT_CLOSED);
}

#[test]
fn a_closed_output() {
    let folder = folder();
    for arguments in [
        "list good.plan",
        "report good.plan",
        "inspect my.list",
        "inspect lost.list",
        "why lost.list 0 4000",
        "why lost.list 70 4000",
        "merge my.list later.list",
        "upper-bytes",
        "pixel-map my.map",
        "requests 4401",
        "requests FFFF",
        "--help",
        "--man",
        "-V",
    ] {
        let script = format!("\"$0\" {arguments} >&-");
        expect(folder.shell(&script), 2, "", OUTPUT_CLOSED);
        // Nor can one be written that is open for reading alone.
        let script = format!("\"$0\" {arguments} 1</dev/null");
        expect(folder.shell(&script), 2, "", OUTPUT_CLOSED);
    }
    // That is found before a plan is opened.
    for name in ["bad.plan", "none"] {
        let script = format!("\"$0\" list {name} >&-");
        expect(folder.shell(&script), 2, "", OUTPUT_CLOSED);
    }
    let both = folder.shell("\"$0\" list good.plan <&- >&-");
    expect(both, 2, "", OUTPUT_CLOSED);
    let all = folder.shell("\"$0\" list good.plan <&- >&- 2>&-");
    expect(all, 2, "", "");
    let plan = fs::read(folder.path("good.plan")).expect("the plan is there");
    assert_eq!(plan, GOOD);
}

#[test]
fn a_closed_error() {
    let folder = folder();
    expect(folder.shell("\"$0\" list good.plan 2>&-"), 0, LISTED, "");
    expect(folder.shell("\"$0\" list bad.plan 2>&-"), 1, "", "");
    expect(folder.shell("\"$0\" list none 2>&-"), 2, "", "");
    expect(folder.shell("\"$0\" --none 2>&-"), 2, "", "");
    expect(folder.shell("\"$0\" list bad.plan <&- 2>&-"), 1, "", "");
    expect(folder.shell("\"$0\" list <&- 2>&-"), 2, "", "");
}

#[test]
fn a_full_output() {
    let folder = folder();
    for arguments in [
        "list good.plan",
        "report good.plan",
        "inspect my.list",
        "inspect lost.list",
        "why lost.list 0 4000",
        "why lost.list 70 4000",
        "merge my.list later.list",
        "upper-bytes",
        "pixel-map my.map",
        "requests 4401",
        "requests FFFF",
        "--help",
        "--man",
        "-V",
    ] {
        let script = format!("\"$0\" {arguments} >/dev/full");
        expect(folder.shell(&script), 2, "", OUTPUT_FULL);
    }
    // Nothing is written for a refused plan.
    let told = refusal("bad.plan", TOO_SHORT);
    let refused = folder.shell("\"$0\" list bad.plan >/dev/full");
    expect(refused, 1, "", &told);
    let told_of_both = "shabgozim: my.list, lost.list: refused 53: the same tick in both lists \
                        (tick 0, lines 2 and 2)\n";
    let refused = folder.shell("\"$0\" merge my.list lost.list >/dev/full");
    expect(refused, 1, "", told_of_both);
    let both = folder.shell("\"$0\" report good.plan bad.plan >/dev/full");
    expect(both, 2, "", &(OUTPUT_FULL.to_owned() + &told));
}

#[test]
fn a_full_error() {
    let folder = folder();
    expect(folder.shell("\"$0\" list bad.plan 2>/dev/full"), 1, "", "");
    expect(folder.shell("\"$0\" --none 2>/dev/full"), 2, "", "");
}

#[test]
fn an_output_of_limited_length() {
    let folder = folder();
    let told = "shabgozim: standard output: File too large\n";
    let ran = folder.shell("ulimit -f 0; \"$0\" list good.plan > list");
    expect(ran, 2, "", told);
}

#[test]
fn a_pipe_without_a_reader() {
    let folder = folder();
    for arguments in [
        &["list", "good.plan"][..],
        &["report", "good.plan"],
        &["inspect", "lost.list"],
        &["why", "lost.list", "70", "4000"],
        &["merge", "my.list", "later.list"],
        &["upper-bytes"],
        &["pixel-map", "my.map"],
        &["requests", "FFFF"],
        &["-h"],
    ] {
        let (reader, writer) = io::pipe().expect("a pipe can be made");
        drop(reader);
        let ran = Command::new(PROGRAM)
            .args(arguments)
            .current_dir(folder.path("."))
            .stdout(writer)
            .stderr(Stdio::piped())
            .output()
            .expect("the program runs");
        let told = "shabgozim: standard output: Broken pipe\n";
        expect(ran, 2, "", told);
    }
}
