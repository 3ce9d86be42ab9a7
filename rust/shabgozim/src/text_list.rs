//! A list as the listing prints it: read from text, and inspected.

use crate::list::ListRefusal;
use crate::plan::MOST_WORDS;
use crate::raw;
use crate::text::{first, line, REFUSAL_LENGTH};

/// Bytes that have room for every inspection.
pub const INSPECTION_LENGTH: usize = 262_144;
/// The most bytes that a list may have as text.
pub const MOST_LIST_BYTES: usize = 8192;

/// The words of a list, and the tick of each.
#[derive(Clone, Debug, PartialEq, Eq)]
pub struct TextList {
    pub words: Vec<u16>,
    pub ticks: Vec<u32>,
}

/// Why and where a list is refused as text.
#[derive(Clone, Copy, Debug, PartialEq, Eq)]
pub struct ListTextRefusal {
    /// 91 to 96.
    pub number: u8,
    /// The faulty line, counted from 1.
    pub line: u32,
}

/// What an inspection says.
#[derive(Clone, Debug, PartialEq, Eq)]
pub struct Inspection {
    pub text: String,
    /// Ignored words, and exposures with an incomplete mirror set or begun
    /// while something moves. A sound list has none.
    pub findings: u32,
}

/// Reads a list from text, in the form in which [`listing`](crate::listing)
/// gives it; the end may be missing. The first faulty line decides.
///
/// ```
/// use shabgozim::{read_list, ListTextRefusal};
///
/// let list = read_list(b"tick word\n0 4000\n3 8000\nend 161\n").unwrap();
/// assert_eq!((list.words, list.ticks), (vec![0x4000, 0x8000], vec![0, 3]));
/// // Ticks must rise.
/// let refusal = read_list(b"tick word\n3 4000\n3 8000\n").unwrap_err();
/// assert_eq!(refusal, ListTextRefusal { number: 93, line: 3 });
/// ```
pub fn read_list(text: &[u8]) -> Result<TextList, ListTextRefusal> {
    let (mut words, mut ticks) = (vec![0; MOST_WORDS], vec![0; MOST_WORDS]);
    let answer = raw::read_list(text, &mut words, &mut ticks);
    let count_or_line = (answer >> 32) as u32;
    match answer as u8 {
        0 => {
            words.truncate(count_or_line as usize);
            ticks.truncate(count_or_line as usize);
            Ok(TextList { words, ticks })
        }
        number => Err(ListTextRefusal {
            number,
            line: count_or_line,
        }),
    }
}

/// Gives a list to a head at power-on, each word at its tick, and tells word by
/// word what it means and what the head makes of it.
///
/// ```
/// use shabgozim::{inspection, read_list};
///
/// // The fourth mirror word is missing.
/// let list = read_list(b"tick word\n0 2011\n1 A000\n2 600F\n69 8000\n").unwrap();
/// let inspected = inspection(&list.words, &list.ticks).unwrap();
/// assert_eq!(inspected.findings, 1);
/// let told = "INCOMPLETE MIRROR SET; received: SIN M, SIN L, COS M";
/// assert!(inspected.text.contains(told));
/// ```
pub fn inspection(words: &[u16], ticks: &[u32]) -> Result<Inspection, ListRefusal> {
    let mut text = vec![0; INSPECTION_LENGTH];
    let answer = raw::inspection(words, ticks, &mut text);
    match answer as u8 {
        0 => Ok(Inspection {
            text: first(text, (answer >> 32) as u32),
            findings: u32::from((answer >> 8) as u16),
        }),
        _ => Err(ListRefusal::NoList),
    }
}

impl ListTextRefusal {
    /// This refusal in words: one line, without its newline. It is empty for a
    /// number that no refused text has.
    ///
    /// ```
    /// use shabgozim::read_list;
    ///
    /// let refusal = read_list(b"tick word\n0 400\n").unwrap_err();
    /// assert_eq!(refusal.in_words(), "refused 92: not a tick and a word (line 2)");
    /// ```
    pub fn in_words(&self) -> String {
        let mut text = vec![0; REFUSAL_LENGTH];
        let length = raw::list_refusal(self.number, self.line, &mut text);
        line(text, length)
    }
}
