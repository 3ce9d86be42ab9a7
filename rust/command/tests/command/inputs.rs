//! Names, files and lengths of input.

use crate::run::*;
use std::ffi::OsStr;
use std::fs::{self, File, Permissions};
use std::os::unix::ffi::OsStrExt;
use std::os::unix::fs::PermissionsExt;
use std::process::Command;

#[test]
fn a_missing_file() {
    let folder = Folder::new().with("p.plan", GOOD);
    let told = "shabgozim: none: No such file or directory\n";
    expect(folder.run(&["list", "none"], GOOD), 2, "", told);
    expect(folder.run(&["inspect", "none"], LOST), 2, "", told);
    expect(folder.run(&["why", "none", "0", "4000"], LOST), 2, "", told);
    expect(folder.run(&["pixel-map", "none"], b""), 2, "", told);
    let arguments = ["report", "p.plan", "none", "p.plan"];
    expect(folder.run(&arguments, b""), 2, &reports(&[GOOD]), told);
    let no_name = "shabgozim: : No such file or directory\n";
    expect(folder.run(&["list", ""], GOOD), 2, "", no_name);
    let below = "shabgozim: p.plan/x: Not a directory\n";
    expect(folder.run(&["list", "p.plan/x"], GOOD), 2, "", below);
}

#[test]
fn a_directory() {
    let folder = Folder::new();
    let told = "shabgozim: .: Is a directory\n";
    expect(folder.run(&["list", "."], GOOD), 2, "", told);
    expect(folder.run(&["report", "."], GOOD), 2, "", told);
    expect(folder.run(&["inspect", "."], GOOD), 2, "", told);
    expect(folder.run(&["why", ".", "0", "4000"], LOST), 2, "", told);
    expect(folder.run(&["pixel-map", "."], GOOD), 2, "", told);
    let told = "shabgozim: standard input: Is a directory\n";
    expect(folder.shell("\"$0\" list < ."), 2, "", told);
}

#[test]
fn a_file_whose_reading_fails() {
    // Nothing is at the first address of a program's memory.
    let folder = Folder::new();
    let told = "shabgozim: /proc/self/mem: Input/output error\n";
    expect(folder.run(&["list", "/proc/self/mem"], GOOD), 2, "", told);
}

#[test]
fn a_file_that_may_not_be_read() {
    let folder = Folder::new().with("p.plan", GOOD);
    let path = folder.path("p.plan");
    fs::set_permissions(&path, Permissions::from_mode(0o000)).expect("the owner may do this");
    if File::open(&path).is_ok() {
        println!("left out: this user may read every file");
        return;
    }
    let told = "shabgozim: p.plan: Permission denied\n";
    expect(folder.run(&["list", "p.plan"], GOOD), 2, "", told);
}

#[test]
fn the_longest_input() {
    // Version 1, the right length, and far more than 64 orders.
    let mut longest = vec![1, 0x0F, 0xFD];
    longest.resize(4096, 1);
    let mut too_long = longest.clone();
    too_long.push(1);
    let folder = Folder::new()
        .with("longest", &longest)
        .with("too_long", &too_long);
    for subcommand in ["list", "report"] {
        let told = refusal("longest", &longest);
        expect(folder.run(&[subcommand, "longest"], b""), 1, "", &told);
        let told = refusal("standard input", &longest);
        expect(folder.run(&[subcommand], &longest), 1, "", &told);
        let told = "shabgozim: too_long: input too long\n";
        expect(folder.run(&[subcommand, "too_long"], b""), 1, "", told);
        let told = "shabgozim: standard input: input too long\n";
        expect(folder.run(&[subcommand], &too_long), 1, "", told);
    }
}

#[test]
fn the_longest_list() {
    let mut longest = LISTED.as_bytes().to_vec();
    longest.resize(8192, b'x');
    let mut too_long = longest.clone();
    too_long.push(b'x');
    let folder = Folder::new()
        .with("longest", &longest)
        .with("too_long", &too_long);
    let told = "shabgozim: longest: refused 95: a line after the end (line 9)\n";
    expect(folder.run(&["inspect", "longest"], b""), 1, "", told);
    let told = "shabgozim: too_long: refused 96: more than 8,192 bytes (line 9)\n";
    expect(folder.run(&["inspect", "too_long"], b""), 1, "", told);
    let arguments = ["why", "too_long", "0", "4000"];
    expect(folder.run(&arguments, b""), 1, "", told);
    let told = "shabgozim: standard input: refused 96: more than 8,192 bytes (line 9)\n";
    expect(folder.run(&["inspect"], &too_long), 1, "", told);
}

#[test]
fn an_endless_input() {
    let folder = Folder::new();
    let told = "shabgozim: /dev/zero: refused 96: more than 8,192 bytes (line 1)\n";
    expect(folder.run(&["inspect", "/dev/zero"], b""), 1, "", told);
    let endless = ["why", "/dev/zero", "0", "4000"];
    expect(folder.run(&endless, b""), 1, "", told);
    let told = "shabgozim: /dev/zero: refused 41: a pixel map has 14,783 bytes\n";
    expect(folder.run(&["pixel-map", "/dev/zero"], b""), 1, "", told);
    for subcommand in ["list", "report"] {
        let told = "shabgozim: /dev/zero: input too long\n";
        expect(folder.run(&[subcommand, "/dev/zero"], b""), 1, "", told);
        let told = "shabgozim: standard input: input too long\n";
        let script = format!("\"$0\" {subcommand} < /dev/zero");
        expect(folder.shell(&script), 1, "", told);
    }
}

#[test]
fn an_input_that_comes_in_pieces() {
    let folder = Folder::new();
    let script = r"{ printf '\001\000'; sleep 0.1; printf '\002\001\020'; } | ".to_owned();
    let ran = folder.shell(&(script + "\"$0\" list"));
    expect(ran, 0, "tick word\n0 4000\nend 3\n", "");
}

#[test]
fn names_that_begin_with_a_dash() {
    let folder = Folder::new()
        .with("-x", GOOD)
        .with("--help", GOOD)
        .with("--", GOOD)
        .with("-", TOO_SHORT);
    for arguments in [
        &["list", "--", "-x"][..],
        &["--", "list", "-x"],
        &["list", "./-x"],
        &["list", "--", "--help"],
        &["list", "--", "--"],
        &["list", "--"],
        &["list", "-"],
        // After `--` too, `-` is the standard input.
        &["list", "--", "-"],
    ] {
        expect(folder.run(arguments, GOOD), 0, LISTED, "");
    }
    let told = refusal("./-", TOO_SHORT);
    expect(folder.run(&["list", "./-"], GOOD), 1, "", &told);
}

#[test]
fn a_name_that_is_no_text() {
    let name = OsStr::from_bytes(b"\xFF.plan");
    let folder = Folder::new();
    let mut command = Command::new(PROGRAM);
    let ran = folder.finish(command.args([OsStr::new("list"), name]), b"");
    assert_eq!((ran.status.code(), ran.stdout.len()), (Some(2), 0));
    let told = b"shabgozim: \xFF.plan: No such file or directory\n";
    assert_eq!(ran.stderr, told);
    let folder = folder.with(name, GOOD);
    let mut command = Command::new(PROGRAM);
    let ran = folder.finish(command.args([OsStr::new("list"), name]), b"");
    expect(ran, 0, LISTED, "");
}
