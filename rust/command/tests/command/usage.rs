//! Arguments that are wrong.

use crate::run::*;

const USAGE: &str = "usage: shabgozim list [PLAN]
       shabgozim report [PLAN...]
       shabgozim inspect [LIST]
       shabgozim why LIST TICK WORD...
       shabgozim merge CCD INFRARED
       shabgozim upper-bytes
       shabgozim pixel-map [MAP]
       shabgozim requests WORD...
       shabgozim --help | --version | --man
";

/// Checks the message; the arguments are judged before anything is read.
fn wrong(arguments: &[&str], told: &str) {
    let folder = Folder::new();
    let errors = format!("shabgozim: {told}\n{USAGE}");
    expect(folder.run(arguments, GOOD), 2, "", &errors);
}

#[test]
fn wrong_arguments_give_the_usage() {
    wrong(&[], "subcommand: missing");
    wrong(&["--"], "subcommand: missing");
    wrong(&["lists"], "lists: unknown subcommand");
    wrong(&["List"], "List: unknown subcommand");
    wrong(&[""], ": unknown subcommand");
    wrong(&["-"], "-: unknown subcommand");
    wrong(&["--", "--help"], "--help: unknown subcommand");
    wrong(&["p.plan"], "p.plan: unknown subcommand");
    wrong(&["-x"], "-x: unknown option");
    wrong(&["--hel"], "--hel: unknown option");
    wrong(&["--help=1"], "--help=1: unknown option");
    wrong(&["-hV"], "-hV: unknown option");
    wrong(&["list", "-x"], "-x: unknown option");
    wrong(&["report", "none", "--none"], "--none: unknown option");
    wrong(&["-x", "--help"], "-x: unknown option");
    wrong(&["list", "a", "b"], "b: one name too many");
    wrong(&["list", "-", "-"], "standard input: one name too many");
    wrong(&["list", "--", "a", "--"], "--: one name too many");
    wrong(&["inspect", "a", "b"], "b: one name too many");
    wrong(&["inspect", "-", "-"], "standard input: one name too many");
    wrong(&["upper-bytes", "a"], "a: one name too many");
    wrong(&["upper-bytes", "-"], "standard input: one name too many");
    wrong(&["upper_bytes"], "upper_bytes: unknown subcommand");
    wrong(&["pixel-map", "a", "b"], "b: one name too many");
    wrong(&["pixel_map"], "pixel_map: unknown subcommand");
}

#[test]
fn two_lists_must_be_named() {
    wrong(&["merge"], "CCD: missing");
    wrong(&["merge", "--"], "CCD: missing");
    wrong(&["merge", "a"], "INFRARED: missing");
    wrong(&["merge", "-"], "INFRARED: missing");
    wrong(&["merge", "a", "b", "c"], "c: one name too many");
    wrong(&["merge", "-", "-"], "standard input: named twice");
    wrong(&["merge", "--", "-", "-"], "standard input: named twice");
    let excess = "standard input: one name too many";
    wrong(&["merge", "-", "-", "-"], excess);
    wrong(&["merge", "a", "-x"], "-x: unknown option");
}

#[test]
fn what_is_no_word_gives_the_usage() {
    wrong(&["requests"], "word: missing");
    wrong(&["requests", "--"], "word: missing");
    let no_words = ["", "-", "440", "04401", "44 1", "+440", "44G1", "0x44"];
    // Four bytes, but three characters.
    for argument in no_words.into_iter().chain(["\u{664}12"]) {
        let told = format!("{argument}: not a word of four hexadecimal digits");
        wrong(&["requests", argument], &told);
        // Nothing is printed of the words beside it.
        wrong(&["requests", "4401", argument, "4401"], &told);
    }
    let told = "-440: not a word of four hexadecimal digits";
    wrong(&["requests", "--", "-440"], told);
    wrong(&["requests", "-440"], "-440: unknown option");
}

#[test]
fn a_list_a_tick_and_a_word_must_be_given() {
    wrong(&["why"], "LIST: missing");
    wrong(&["why", "--"], "LIST: missing");
    wrong(&["why", "a"], "TICK: missing");
    wrong(&["why", "-"], "TICK: missing");
    wrong(&["why", "a", "70"], "word: missing");
    wrong(&["why", "a", "70", "--"], "word: missing");
    wrong(&["why", "a", "70", "4000", "-x"], "-x: unknown option");
    let no_words = ["", "-", "400", "04000", "40G0", "0x40"];
    for argument in no_words {
        let told = format!("{argument}: not a word of four hexadecimal digits");
        wrong(&["why", "a", "70", argument], &told);
        // Nothing is printed of the words beside it.
        wrong(&["why", "a", "70", "4000", argument], &told);
    }
}

#[test]
fn what_is_no_tick_gives_the_usage() {
    let no_ticks = [
        "", "-", "+70", "7 0", "70 ", "7A", "0x46", "70.0", "\u{667}0",
    ];
    for argument in no_ticks.into_iter().chain(["4294967296", "99999999999"]) {
        let told = format!("{argument}: not a decimal number below 2^32");
        wrong(&["why", "a", argument, "4000"], &told);
        // It is judged before the words.
        wrong(&["why", "a", argument, "400"], &told);
        wrong(&["why", "a", argument], &told);
    }
    wrong(&["why", "a", "-70", "4000"], "-70: unknown option");
    let told = "-70: not a decimal number below 2^32";
    wrong(&["why", "--", "a", "-70", "4000"], told);
}
