//! What the programs print: a plan's listing, the report of its simulation,
//! a refusal in words, and the table of upper bytes.

use crate::plan::PlanRefusal;
use crate::raw;
use crate::state::State;

/// Bytes that have room for every listing.
pub const LISTING_LENGTH: usize = 8192;
/// Bytes that have room for every report.
pub const REPORT_LENGTH: usize = 65536;
/// Bytes that have room for every refusal in words.
pub const REFUSAL_LENGTH: usize = 1024;
/// Bytes that have room for the table of upper bytes.
pub const UPPER_BYTES_LENGTH: usize = 16384;
/// The most bytes that the programs read as a plan.
pub const MOST_PLAN_BYTES: usize = 4096;

/// The listing of a plan for a head in the given state, as the program
/// `listing` prints it. There is no refusal 10, which is for short buffers.
///
/// ```
/// use shabgozim::{listing, State};
///
/// // A housekeeping request.
/// let text = listing(&State::power_on(), &[1, 0, 2, 1, 16]).unwrap();
/// assert_eq!(text, "tick word\n0 4000\nend 3\n");
/// ```
pub fn listing(state: &State, plan: &[u8]) -> Result<String, PlanRefusal> {
    let mut text = vec![0; LISTING_LENGTH];
    let answer = raw::listing(&state.numbers, plan, &mut text);
    written(answer, text)
}

impl State {
    /// Lets ticks pass until the head is idle and at rest, simulates the plan
    /// on it, and gives the report. The head is then at the plan's end. A
    /// refusal leaves it as it was; there is no refusal 10, which is for short
    /// buffers.
    ///
    /// ```
    /// use shabgozim::{place, State};
    ///
    /// let mut head = State::power_on();
    /// // The second plan has an order that is longer than the plan.
    /// assert!(head.report(&[1, 0, 3, 2, 7, 1]).is_ok());
    /// assert_eq!(head.report(&[1, 0, 3, 9, 7, 0]).unwrap_err().number, 5);
    /// assert_eq!(head.numbers[place::DETECTOR], 1);
    /// ```
    pub fn report(&mut self, plan: &[u8]) -> Result<String, PlanRefusal> {
        let mut text = vec![0; REPORT_LENGTH];
        let answer = raw::report(&mut self.numbers, plan, &mut text);
        written(answer, text)
    }
}

impl PlanRefusal {
    /// This refusal of `plan` in words: one line, without its newline. It is
    /// empty for a number that no refused plan has.
    ///
    /// ```
    /// use shabgozim::{listing, State};
    ///
    /// let plan = [1, 0];
    /// let refusal = listing(&State::power_on(), &plan).unwrap_err();
    /// assert_eq!(refusal.in_words(&plan), "refused 2: fewer than 3 bytes (byte 0)");
    /// ```
    pub fn in_words(&self, plan: &[u8]) -> String {
        let mut text = vec![0; REFUSAL_LENGTH];
        // The library's own places always fit.
        let place = u32::try_from(self.place).unwrap_or(u32::MAX);
        let length = raw::refusal(self.number, place, plan, &mut text);
        line(text, length)
    }
}

/// The table of upper bytes, by which words are checked by eye: a line for each
/// of the 256, with the kind of the words that begin with it and the ranges of
/// those that are allowed.
///
/// ```
/// let table = shabgozim::upper_bytes();
/// assert!(table.contains("\nE0    COS L         E000-E0FF\n"));
/// assert!(table.contains("\n38    unknown       none\n"));
/// ```
pub fn upper_bytes() -> String {
    let mut text = vec![0; UPPER_BYTES_LENGTH];
    let answer = raw::upper_bytes(&mut text);
    first(text, (answer >> 32) as u32)
}

/// The text of a packed answer, or the refusal.
fn written(answer: u64, text: Vec<u8>) -> Result<String, PlanRefusal> {
    let length_or_place = (answer >> 32) as u32;
    match answer as u8 {
        0 => Ok(first(text, length_or_place)),
        number => Err(PlanRefusal {
            number,
            place: length_or_place as usize,
            count: 0,
        }),
    }
}

/// A refusal of the high-resolution head in words.
pub(crate) fn h_refusal(number: u8) -> String {
    let mut text = vec![0; REFUSAL_LENGTH];
    let length = raw::h_refusal(number, &mut text);
    line(text, length)
}

/// A refusal of a word that is not passed on, or of merging, in words.
pub(crate) fn operator_refusal(number: u8) -> String {
    let mut text = vec![0; REFUSAL_LENGTH];
    let length = raw::operator_refusal(number, &mut text);
    line(text, length)
}

/// The first bytes as text, without a newline at their end.
pub(crate) fn line(text: Vec<u8>, length: u32) -> String {
    let mut line = first(text, length);
    line.truncate(line.trim_end_matches('\n').len());
    line
}

/// The first bytes as text. The library writes ASCII alone, so that nothing is
/// replaced here.
pub(crate) fn first(mut text: Vec<u8>, length: u32) -> String {
    text.truncate(length as usize);
    String::from_utf8_lossy(&text).into_owned()
}
