//! The program described once, as data. The arguments are read by it, and help
//! and manual page are made from it.

use crate::failure::{DONE, FAILED, REFUSED};
use crate::texts::{inspected, pictured, planned, PairRefusal, Text};
use crate::{help, man, merge, requests, why};
use shabgozim::{listing, upper_bytes, PixelMap, State, MOST_LIST_BYTES, MOST_PLAN_BYTES};
use std::ffi::c_int;

pub const NAME: &str = "shabgozim";

pub const SUMMARY: &str =
    "lists plans for the VIRTIS-M instrument head, reports what the head does with them, \
     inspects and merges lists, tells why words do nothing, and shows pixel maps and requests of \
     the high-resolution head";

pub struct Subcommand {
    pub name: &'static str,
    pub prints: Prints,
    pub says: &'static str,
}

pub enum Prints {
    /// A text for which nothing is read.
    Table(fn() -> String),
    /// The texts of plans, or of a list, or the picture of a map.
    Texts(Inputs),
    /// The text of two inputs together.
    Pair(Pair),
    /// The text about words that are given as arguments.
    Words(fn(&[u16]) -> Text),
    /// The text about such words at a tick of a list.
    AtTick(AtTick),
}

pub struct Inputs {
    /// The names in the synopsis.
    pub operands: &'static str,
    pub most_names: usize,
    /// The most bytes that an input may have.
    pub most_bytes: usize,
    /// The text or picture of an input for a head, or the refusal in words. The
    /// input has one byte more where it is too long.
    pub text: fn(&mut State, &[u8]) -> Result<Text, String>,
}

/// Two inputs, both of which must be named.
pub struct Pair {
    /// The names in the synopsis.
    pub operands: [&'static str; 2],
    /// The most bytes that an input may have.
    pub most_bytes: usize,
    /// The text of both, or the refusal. An input has one byte more where it is
    /// too long.
    pub text: fn([&[u8]; 2]) -> Result<Text, PairRefusal>,
}

/// List, tick and words.
type TextAtTick = fn(&[u8], u32, &[u16]) -> Result<Text, String>;

/// A list and a tick, both of which must be given before the words.
pub struct AtTick {
    /// The list and the tick in the synopsis.
    pub operands: [&'static str; 2],
    /// The most bytes that the list may have.
    pub most_bytes: usize,
    /// The text about the words, or the refusal of the list in words. The list
    /// has one byte more where it is too long.
    pub text: TextAtTick,
}

/// The words in the synopsis.
pub const WORDS: &str = "WORD...";

pub const SUBCOMMANDS: &[Subcommand] = &[
    Subcommand {
        name: "list",
        prints: Prints::Texts(Inputs {
            operands: "[PLAN]",
            most_names: 1,
            most_bytes: MOST_PLAN_BYTES,
            text: |head, plan| planned(plan, |plan| listing(head, plan)),
        }),
        says: "Prints the words of a plan for a head at power-on, each with its tick, and the end.",
    },
    Subcommand {
        name: "report",
        prints: Prints::Texts(Inputs {
            operands: "[PLAN...]",
            most_names: usize::MAX,
            most_bytes: MOST_PLAN_BYTES,
            text: |head, plan| planned(plan, |plan| head.report(plan)),
        }),
        says: "Prints what a head does with a plan. The first plan begins at power-on. Each \
               further one begins with the head as the plan before it left it, after the ticks \
               until it is idle and at rest. A plan that is refused or cannot be read is the \
               last one; the reports before it are printed.",
    },
    Subcommand {
        name: "inspect",
        prints: Prints::Texts(Inputs {
            operands: "[LIST]",
            most_names: 1,
            most_bytes: MOST_LIST_BYTES,
            text: |_, list| inspected(list),
        }),
        says: "Prints what each word of a list means and what a head at power-on makes of it, \
               the settings that are left, and how many findings there are: ignored words, \
               exposures while a mirror set is incomplete, and exposures begun while something \
               moves.",
    },
    Subcommand {
        name: "why",
        prints: Prints::AtTick(AtTick {
            operands: ["LIST", "TICK"],
            most_bytes: MOST_LIST_BYTES,
            text: why::lines,
        }),
        says: "Prints why words do nothing at a tick: a head at power-on gets the words of the \
               list that come before that tick, each at its own tick, and is then asked about \
               each WORD by itself. A line tells whether the head takes it or ignores it, and names \
               the rule by which it is ignored, with the ticks that the head is still busy or \
               the cover still moves, the word, or the mirror word that was due.",
    },
    Subcommand {
        name: "merge",
        prints: Prints::Pair(Pair {
            operands: ["CCD", "INFRARED"],
            most_bytes: MOST_LIST_BYTES,
            text: merge::merged,
        }),
        says: "Prints the lists of the CCD operator and of the infrared operator as one list, \
               merged by tick. It has no end, since that depends on the controller's words, and \
               may have more words than inspect takes. Whether a word is its operator's is not \
               judged. Two lists that have a tick in common are refused; the first such tick is \
               told, with its line in each.",
    },
    Subcommand {
        name: "upper-bytes",
        prints: Prints::Table(upper_bytes),
        says: "Prints a table to check words by eye: for each upper byte the kind of the words \
               that begin with it, and the ranges of those that are allowed. Nothing is read.",
    },
    Subcommand {
        name: "pixel-map",
        prints: Prints::Texts(Inputs {
            operands: "[MAP]",
            most_names: 1,
            most_bytes: PixelMap::BYTES,
            text: |_, map| pictured(map),
        }),
        says: "Prints a pixel map of the high-resolution head as a picture, a portable bitmap \
               (PBM): lighted pixels are black. The picture's second line tells how many there \
               are and how long the readout takes.",
    },
    Subcommand {
        name: "requests",
        prints: Prints::Words(requests::lines),
        says: "Prints what words for the high-resolution head ask for: a line for each, with its \
               value, the request, and what the fields of the value say. Where several requests \
               have the same word, all of them are named. Nothing is read.",
    },
];

/// An option prints a text about the program.
pub struct ShowOption {
    pub names: &'static [&'static str],
    pub text: fn() -> String,
    pub says: &'static str,
}

pub const OPTIONS: &[ShowOption] = &[
    ShowOption {
        names: &["-h", "--help"],
        text: help::page,
        says: "Prints this description as plain text.",
    },
    ShowOption {
        names: &["-V", "--version"],
        text: version,
        says: "Prints the program's name and version.",
    },
    ShowOption {
        names: &["--man"],
        text: man::page,
        says: "Prints this description as a manual page, in roff.",
    },
];

/// What `--` does.
pub const END_OF_OPTIONS: &str =
    "Ends the options: every argument after it is a subcommand, a name, a tick or a word, also \
     one that begins with -.";

pub const STATUSES: &[(c_int, &str)] = &[
    (
        DONE,
        "Everything was printed, an inspected list has no findings, and no word was refused or \
         is ignored.",
    ),
    (
        REFUSED,
        "A plan, a list, a pixel map or a word was refused, two lists to be merged have a tick \
         in common, a list was inspected and has findings, or the head was asked about a word and \
         ignores it.",
    ),
    (
        FAILED,
        "An input could not be read, the output could not be written, or an argument is wrong.",
    ),
];

pub const EXAMPLES: &[(&str, &str)] = &[
    ("shabgozim list my.plan", "Lists a plan."),
    (
        "shabgozim list my.plan > my.list && lp my.list",
        "Puts the listing on paper, but only where the plan is accepted.",
    ),
    (
        "shabgozim report my.plan next.plan",
        "Reports two plans on one head, one after the other.",
    ),
    (
        "shabgozim inspect their.list && mv their.list sound",
        "Puts a list into the folder sound, but only where its inspection has no findings.",
    ),
    (
        "shabgozim why their.list 70 4000 C000",
        "Tells why a head does nothing with two words at tick 70 of a list, or that it takes them.",
    ),
    (
        "shabgozim merge ccd.list infrared.list > both.list",
        "Merges the lists of the two operators.",
    ),
    (
        "shabgozim pixel-map my.map > my.pbm",
        "Makes a picture of a pixel map, which viewers of pictures open.",
    ),
    (
        "shabgozim requests 4401 2405",
        "Tells what two words ask of the high-resolution head.",
    ),
    (
        r"printf '\001\000\002\001\020' | shabgozim list",
        "Lists a plan of one housekeeping request.",
    ),
];

/// The paragraphs about the program as a whole.
pub fn about() -> Vec<String> {
    let input = format!(
        "A PLAN is the name of a file that has a stored plan, a LIST that of a file that has a \
         list of words as the subcommand list prints it, a MAP that of a file that has a pixel \
         map. CCD and INFRARED are names like LIST, for the lists of the two operators. For the \
         name -, and without a name where it may be left out, standard input is read; one of the \
         two operators' lists can come from there, not both. A plan of more than \
         {MOST_PLAN_BYTES} bytes and a list of more than {MOST_LIST_BYTES} bytes are refused, and \
         a map that has not {} bytes. A WORD is four hexadecimal digits, the letters of either \
         case. A TICK is a decimal number, at most {}; a tick takes 10 ms.",
        PixelMap::BYTES,
        u32::MAX
    );
    let output = "What is printed is the verified library's text; the lines of the subcommand \
                  requests, those of why without the rule that they name, and the tick that two \
                  lists share, are made from its answers. Nothing is printed for a refused plan, \
                  list or map, nor for lists that are not merged: the refusal is told on \
                  standard error, with its number and, where it has one, its place. A refused \
                  word has its refusal in its line, an ignored one its rule. All output is \
                  written at the end, when it is complete.";
    vec![input, output.into()]
}

/// Name and version.
pub fn version() -> String {
    format!("{NAME} {}\n", env!("CARGO_PKG_VERSION"))
}
