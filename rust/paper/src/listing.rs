//! The printed form of a translation from the power-on state.

use std::fmt::Write;

use crate::state::power_on;
use crate::translate::translate;

/// The longest plan the listing program reads.
pub const MOST_INPUT: usize = 4096;

const MOST_WORDS: usize = 256;

/// What the listing program prints for this input.
pub fn listing(input: &[u8]) -> String {
    if input.len() > MOST_INPUT {
        return String::from("input too long\n");
    }
    let mut words = [0; MOST_WORDS];
    let mut ticks = [0; MOST_WORDS];
    match translate(&power_on(), input, &mut words, &mut ticks) {
        Ok(done) => lines(&words[..done.count], &ticks[..done.count], done.end),
        Err(refusal) => format!("refused {} at {}\n", refusal.number, refusal.place),
    }
}

/// The lines of timed words and their end.
pub fn lines(words: &[u16], ticks: &[u32], end: u32) -> String {
    let mut text = String::from("tick word\n");
    for (word, tick) in words.iter().zip(ticks) {
        // Writing to a string never fails.
        let _ = writeln!(text, "{tick} {word:04X}");
    }
    let _ = writeln!(text, "end {end}");
    text
}
