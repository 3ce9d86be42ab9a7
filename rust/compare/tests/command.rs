//! What the command line answers: usage, and runs that compare nothing.

use compare::command::{self, FAILED, NO_DIFFERENCE, WRONG_USAGE};
use compare::parts::{Part, PARTS};
use std::process::{Command, Output};

fn compare(arguments: &[&str]) -> Output {
    let mut command = Command::new(env!("CARGO_BIN_EXE_compare"));
    command.args(arguments).output().expect("the program runs")
}

/// The status of a run over these parts, without a process of its own.
fn status(parts: &[Part], arguments: &[&str]) -> u8 {
    command::run(parts, arguments.iter().map(|word| word.to_string()))
}

#[test]
fn a_known_part_runs_alone() {
    let run = compare(&["--seed", "1", "--only", "decode"]);
    assert_eq!(run.status.code(), Some(NO_DIFFERENCE.into()));
    let printed = String::from_utf8_lossy(&run.stdout);
    let counts = printed.matches("65536 comparisons").count();
    assert_eq!((counts, printed.lines().count()), (2, 3), "{printed}");
}

#[test]
fn an_unknown_part_is_wrong_usage() {
    for name in ["nonsense", "Decode", "DECODE", "decode ", "deco", ""] {
        let run = compare(&["--only", name]);
        assert_eq!(run.status.code(), Some(WRONG_USAGE.into()), "{name:?}");
        assert!(run.stdout.is_empty(), "{name:?}");
        let usage = String::from_utf8_lossy(&run.stderr);
        assert!(usage.starts_with("usage: compare"), "{usage}");
        let listed = |part: &Part| usage.lines().any(|line| line.trim() == part.name);
        assert!(PARTS.iter().all(listed), "{usage}");
    }
}

#[test]
fn other_arguments_are_wrong_usage() {
    let wrong: [&[&str]; 5] = [
        &["--only"],
        &["--seed"],
        &["--seed", "one"],
        &["--short"],
        &["decode"],
    ];
    for arguments in wrong {
        assert_eq!(status(PARTS, arguments), WRONG_USAGE, "{arguments:?}");
    }
}

#[test]
fn a_run_of_no_comparisons_fails() {
    let decode = PARTS[0];
    let empty = Part {
        name: "empty",
        compare: |_, _, _| Ok(0),
    };
    assert_eq!(status(&[decode], &[]), NO_DIFFERENCE);
    assert_eq!(status(&[], &[]), FAILED);
    assert_eq!(status(&[empty], &[]), FAILED);
    assert_eq!(status(&[decode, empty], &[]), FAILED);
    assert_eq!(status(&[decode, empty], &["--only", "empty"]), FAILED);
    let only_decode = ["--only", decode.name];
    assert_eq!(status(&[decode, empty], &only_decode), NO_DIFFERENCE);
}
