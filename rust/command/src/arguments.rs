//! What the arguments ask for.

use crate::description::{AtTick, Inputs, Pair, Prints, OPTIONS, SUBCOMMANDS};
use crate::failure::Failure;
use crate::source::Source;
use crate::texts::Text;
use std::ffi::{OsStr, OsString};
use std::os::unix::ffi::OsStrExt;

pub enum Asked {
    /// A text for which nothing is read.
    Show(fn() -> String),
    /// The texts of plans, or of a list, or the picture of a map.
    Texts(&'static Inputs, Vec<Source>),
    /// The text of two inputs together.
    Pair(&'static Pair, [Source; 2]),
    /// The text about words.
    Words(fn(&[u16]) -> Text, Vec<u16>),
    /// The text about words at a tick of a list.
    AtTick(&'static AtTick, Source, u32, Vec<u16>),
}

/// How many digits a word has.
const WORD_DIGITS: usize = 4;
const NO_WORD: &str = "not a word of four hexadecimal digits";
const NO_TICK: &str = "not a decimal number below 2^32";

/// Reads the arguments after the program's name. Options may stand anywhere
/// before `--`; the first one decides.
pub fn read(arguments: impl Iterator<Item = OsString>) -> Result<Asked, Failure> {
    let mut operands = Vec::new();
    let mut options_ended = false;
    for argument in arguments {
        if options_ended || !begins_as_option(&argument) {
            operands.push(argument);
        } else if argument == "--" {
            options_ended = true;
        } else {
            return option(&argument);
        }
    }
    subcommand(operands)
}

/// `-` alone is a name.
fn begins_as_option(argument: &OsStr) -> bool {
    argument.as_bytes().starts_with(b"-") && argument != "-"
}

fn option(argument: &OsStr) -> Result<Asked, Failure> {
    let found = OPTIONS
        .iter()
        .find(|option| option.names.iter().any(|name| argument == *name));
    match found {
        Some(option) => Ok(Asked::Show(option.text)),
        None => Err(Failure::usage(argument, "unknown option")),
    }
}

/// A subcommand and its names or words.
fn subcommand(operands: Vec<OsString>) -> Result<Asked, Failure> {
    let mut operands = operands.into_iter();
    let Some(name) = operands.next() else {
        return Err(Failure::usage(OsStr::new("subcommand"), "missing"));
    };
    let Some(subcommand) = SUBCOMMANDS.iter().find(|known| name == known.name) else {
        return Err(Failure::usage(&name, "unknown subcommand"));
    };
    match &subcommand.prints {
        Prints::Table(text) => {
            sources(operands, 0)?;
            Ok(Asked::Show(*text))
        }
        Prints::Texts(inputs) => {
            let sources = sources(operands, inputs.most_names)?;
            Ok(Asked::Texts(inputs, or_standard_input(sources)))
        }
        Prints::Pair(pair) => Ok(Asked::Pair(pair, both(pair, operands)?)),
        Prints::Words(text) => Ok(Asked::Words(*text, words(operands)?)),
        Prints::AtTick(at_tick) => words_at_tick(at_tick, operands),
    }
}

/// The sources of the names, of which there may be so many.
fn sources(names: impl Iterator<Item = OsString>, most: usize) -> Result<Vec<Source>, Failure> {
    let sources: Vec<Source> = names.map(Source::of).collect();
    match sources.get(most) {
        Some(excess) => Err(Failure::usage(excess.name(), "one name too many")),
        None => Ok(sources),
    }
}

fn or_standard_input(mut sources: Vec<Source>) -> Vec<Source> {
    if sources.is_empty() {
        sources.push(Source::StandardInput);
    }
    sources
}

/// The two sources that must be named. Standard input cannot be read twice.
fn both(pair: &Pair, names: impl Iterator<Item = OsString>) -> Result<[Source; 2], Failure> {
    let sources = sources(names, pair.operands.len())?;
    match <[Source; 2]>::try_from(sources) {
        Ok([Source::StandardInput, again @ Source::StandardInput]) => {
            Err(Failure::usage(again.name(), "named twice"))
        }
        Ok(both) => Ok(both),
        Err(fewer) => {
            let missing = pair.operands[fewer.len()];
            Err(Failure::usage(OsStr::new(missing), "missing"))
        }
    }
}

/// The list, the tick and the words that must be given.
fn words_at_tick(
    at_tick: &'static AtTick,
    mut operands: impl Iterator<Item = OsString>,
) -> Result<Asked, Failure> {
    let [list, at] = at_tick.operands;
    let list = Source::of(required(operands.next(), list)?);
    let at = tick(required(operands.next(), at)?)?;
    Ok(Asked::AtTick(at_tick, list, at, words(operands)?))
}

fn required(operand: Option<OsString>, name: &str) -> Result<OsString, Failure> {
    operand.ok_or_else(|| Failure::usage(OsStr::new(name), "missing"))
}

/// One word or more.
fn words(operands: impl Iterator<Item = OsString>) -> Result<Vec<u16>, Failure> {
    let words: Vec<u16> = operands.map(word).collect::<Result<_, _>>()?;
    match words.is_empty() {
        true => Err(Failure::usage(OsStr::new("word"), "missing")),
        false => Ok(words),
    }
}

/// The tick that an operand is. Its digits are judged too, as a word's are.
fn tick(operand: OsString) -> Result<u32, Failure> {
    let digits = operand.to_str().unwrap_or_default();
    let are_digits = digits.bytes().all(|digit| digit.is_ascii_digit());
    match digits.parse() {
        Ok(tick) if are_digits => Ok(tick),
        _ => Err(Failure::usage(&operand, NO_TICK)),
    }
}

/// The word that an operand is. Its digits are judged one by one, since a sign
/// before them would be read too.
fn word(operand: OsString) -> Result<u16, Failure> {
    let digits = operand.to_str().unwrap_or_default();
    let are_digits = digits.bytes().all(|digit| digit.is_ascii_hexdigit());
    match u16::from_str_radix(digits, 16) {
        Ok(word) if are_digits && digits.len() == WORD_DIGITS => Ok(word),
        _ => Err(Failure::usage(&operand, NO_WORD)),
    }
}
