//! A list of timed words read from text, as the listing prints it.

use crate::list::MOST_LIST_WORDS;

/// The most bytes that such a text may have.
pub const MOST_TEXT_BYTES: usize = 8192;

const TITLE: &[u8] = b"tick word";

const NO_TITLE: u16 = 91;
const NO_WORD: u16 = 92;
const NOT_ABOVE: u16 = 93;
const TOO_MANY_WORDS: u16 = 94;
const AFTER_END: u16 = 95;
const TOO_LONG: u16 = 96;

/// The words of a text, and their ticks.
#[derive(Clone, Debug, Default, PartialEq, Eq)]
pub struct TextList {
    pub words: Vec<u16>,
    pub ticks: Vec<u32>,
}

/// Why a text is refused, and at which line, counted from 1.
#[derive(Clone, Copy, Debug, PartialEq, Eq)]
pub struct TextRefusal {
    /// 91 to 96.
    pub number: u16,
    pub line: usize,
}

/// Reads a list from text. The first faulty line decides.
pub fn read_list(text: &[u8]) -> Result<TextList, TextRefusal> {
    if let Some(first) = text.get(..=MOST_TEXT_BYTES) {
        return refuse(TOO_LONG, lines(first).len());
    }
    let lines = lines(text);
    if lines.first() != Some(&TITLE) {
        return refuse(NO_TITLE, 1);
    }
    let mut reader = Reader::default();
    for (line, number) in lines[1..].iter().zip(2..) {
        if let Err(cause) = reader.read(line) {
            return refuse(cause, number);
        }
    }
    Ok(reader.list)
}

/// What a newline ends, and what follows the last one, if anything does.
fn lines(text: &[u8]) -> Vec<&[u8]> {
    let mut lines: Vec<&[u8]> = text.split(|&byte| byte == b'\n').collect();
    if lines.last().is_some_and(|last| last.is_empty()) {
        lines.pop();
    }
    lines
}

fn refuse<T>(number: u16, line: usize) -> Result<T, TextRefusal> {
    Err(TextRefusal { number, line })
}

#[derive(Default)]
struct Reader {
    list: TextList,
    ended: bool,
}

impl Reader {
    /// Takes a line after the title, or gives the number of its fault.
    fn read(&mut self, line: &[u8]) -> Result<(), u16> {
        if self.ended {
            return Err(AFTER_END);
        }
        let line = Line::of(line).ok_or(NO_WORD)?;
        let before = self.list.ticks.last();
        if before.is_some_and(|&before| line.tick <= before) {
            return Err(NOT_ABOVE);
        }
        match line.word {
            None => self.ended = true,
            Some(_) if self.list.words.len() == MOST_LIST_WORDS => return Err(TOO_MANY_WORDS),
            Some(word) => {
                self.list.words.push(word);
                self.list.ticks.push(line.tick);
            }
        }
        Ok(())
    }
}

/// A tick and its word; the end has no word.
struct Line {
    tick: u32,
    word: Option<u16>,
}

impl Line {
    fn of(line: &[u8]) -> Option<Line> {
        let (first, second) = std::str::from_utf8(line).ok()?.split_once(' ')?;
        if first == "end" {
            let (tick, word) = (decimal(second)?, None);
            return Some(Line { tick, word });
        }
        let (tick, word) = (decimal(first)?, Some(four_digits(second)?));
        Some(Line { tick, word })
    }
}

/// A number below 2^32 without leading zeros.
fn decimal(digits: &str) -> Option<u32> {
    let all_digits = digits.bytes().all(|byte| byte.is_ascii_digit());
    let leading_zero = digits.len() > 1 && digits.starts_with('0');
    // No digits at all are no number to `parse` either.
    match all_digits && !leading_zero {
        true => digits.parse().ok(),
        false => None,
    }
}

/// Four hexadecimal digits, their letters of either case.
fn four_digits(digits: &str) -> Option<u16> {
    let all_digits = digits.bytes().all(|byte| byte.is_ascii_hexdigit());
    match all_digits && digits.len() == 4 {
        true => u16::from_str_radix(digits, 16).ok(),
        false => None,
    }
}

impl TextRefusal {
    /// This refusal in words: one line, without its newline. It is empty for a
    /// number that no refused text has.
    pub fn in_words(&self) -> String {
        let TextRefusal { number, line } = *self;
        let reason = match number {
            NO_TITLE => "the first line is not \"tick word\"",
            NO_WORD => "not a tick and a word",
            NOT_ABOVE => "the tick is not above the one before",
            TOO_MANY_WORDS => "more than 256 words",
            AFTER_END => "a line after the end",
            TOO_LONG => "more than 8,192 bytes",
            _ => return String::new(),
        };
        format!("refused {number}: {reason} (line {line})")
    }
}
