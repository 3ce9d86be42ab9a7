//! The lists of the two operators merged by tick, as numbers or as text.

use crate::operators::Operator;
use crate::raw;
use crate::text::{first, operator_refusal};
use crate::text_list::ListTextRefusal;

/// Bytes that have room for every merged list as text.
pub const MERGED_TEXT_LENGTH: usize = 16384;

/// How many bits of an entry are its word.
const WORD_BITS: u32 = 16;
/// The first tick that no entry can have, 2^48.
const TICKS_END: u64 = 1 << (u64::BITS - WORD_BITS);

/// How two lists were merged.
#[derive(Clone, Copy, Debug, PartialEq, Eq)]
pub struct Merged<'a> {
    /// How many entries were merged.
    pub count: usize,
    /// What is left to go on with.
    pub rest: Rest<'a>,
}

/// What is left of the list that has not run out, with its operator. Where both
/// have ended it is the empty rest of the infrared operator's.
#[derive(Clone, Copy, Debug, PartialEq, Eq)]
pub enum Rest<'a> {
    /// The rest of the CCD operator's list.
    Ccd(&'a [u64]),
    /// The rest of the infrared operator's list.
    Infrared(&'a [u64]),
}

/// Why two lists are not merged; each with document 02's number.
#[derive(Clone, Copy, Debug, PartialEq, Eq)]
pub enum MergeRefusal {
    /// The ticks of a list do not rise strictly.
    NotRising = 52,
    /// The same tick is in both lists.
    SameTick = 53,
    /// There is no room for the merged part.
    NoRoom = 54,
}

/// Why two lists that are text are not merged.
#[derive(Clone, Copy, Debug, PartialEq, Eq)]
pub enum MergeTextsRefusal {
    /// The text of this operator is no list: 91 to 96.
    NoList(Operator, ListTextRefusal),
    /// The same tick is in both lists: document 02's 53.
    SameTick,
}

/// The entry of a word at a tick, tick x 65,536 + word; none for a tick of 2^48
/// or more.
///
/// ```
/// use shabgozim::{entry, tick_and_word};
///
/// assert_eq!(entry(3, 0x9832), Some(0x3_9832));
/// assert_eq!(tick_and_word(0x3_9832), (3, 0x9832));
/// assert_eq!(entry(1 << 48, 0), None);
/// ```
pub fn entry(tick: u64, word: u16) -> Option<u64> {
    (tick < TICKS_END).then_some(tick << WORD_BITS | u64::from(word))
}

/// The tick and the word of an entry.
pub fn tick_and_word(entry: u64) -> (u64, u16) {
    (entry >> WORD_BITS, entry as u16)
}

/// Merges two lists of entries by tick until one of them has run out, into the
/// first `count` places of `merged`. What is left of the other is for the caller
/// to go on with: the merged entries and then the rest are the merge of the two
/// whole lists. A refusal writes nothing.
///
/// ```
/// use shabgozim::{entry, merge, MergeRefusal, Merged, Rest};
///
/// let list = |ticks: &[u64]| -> Vec<u64> {
///     ticks.iter().filter_map(|&tick| entry(tick, 0x9832)).collect()
/// };
/// let (ccd, infrared) = (list(&[0, 4, 9]), list(&[2, 3]));
/// let mut room = [0; 3];
/// let rest = Rest::Ccd(&ccd[1..]);
/// assert_eq!(merge(&ccd, &infrared, &mut room), Ok(Merged { count: 3, rest }));
/// assert_eq!(room.to_vec(), list(&[0, 2, 3]));
/// assert_eq!(merge(&ccd, &infrared, &mut room[..2]), Err(MergeRefusal::NoRoom));
/// ```
pub fn merge<'a>(
    ccd: &'a [u64],
    infrared: &'a [u64],
    merged: &mut [u64],
) -> Result<Merged<'a>, MergeRefusal> {
    let answer = raw::merge(ccd, infrared, merged);
    if answer.number != 0 {
        return Err(MergeRefusal::of(answer.number));
    }
    // The library's own places are always in the list.
    let from_start = |list: &'a [u64]| list.get(answer.rest_start..).unwrap_or_default();
    let rest = match Operator::of(answer.rest_of) {
        Operator::Ccd => Rest::Ccd(from_start(ccd)),
        Operator::Infrared => Rest::Infrared(from_start(infrared)),
    };
    let count = answer.count;
    Ok(Merged { count, rest })
}

/// Merges two lists that are text, in the form that
/// [`read_list`](crate::read_list) reads, into the text of the whole merged list.
/// It has up to 512 words and no end: when the head is free again depends on the
/// controller's words, which are in neither list.
///
/// ```
/// use shabgozim::{merge_texts, MergeTextsRefusal};
///
/// let ccd = b"tick word\n0 2864\n2 9832\n";
/// let merged = merge_texts(ccd, b"tick word\n1 08C8\nend 2\n");
/// assert_eq!(merged.unwrap(), "tick word\n0 2864\n1 08C8\n2 9832\n");
/// let refused = merge_texts(ccd, b"tick word\n2 08C8\n");
/// assert_eq!(refused, Err(MergeTextsRefusal::SameTick));
/// ```
pub fn merge_texts(ccd: &[u8], infrared: &[u8]) -> Result<String, MergeTextsRefusal> {
    let mut text = vec![0; MERGED_TEXT_LENGTH];
    let answer = raw::merge_texts(ccd, infrared, &mut text);
    let length_or_line = (answer >> 32) as u32;
    match answer as u8 {
        0 => Ok(first(text, length_or_line)),
        53 => Err(MergeTextsRefusal::SameTick),
        number => Err(MergeTextsRefusal::NoList(
            Operator::of(u32::from((answer >> 8) as u16)),
            ListTextRefusal {
                number,
                line: length_or_line,
            },
        )),
    }
}

impl<'a> Rest<'a> {
    /// Whose list it is of.
    pub fn operator(self) -> Operator {
        match self {
            Rest::Ccd(_) => Operator::Ccd,
            Rest::Infrared(_) => Operator::Infrared,
        }
    }

    /// The entries that are left.
    pub fn entries(self) -> &'a [u64] {
        match self {
            Rest::Ccd(entries) | Rest::Infrared(entries) => entries,
        }
    }
}

impl MergeRefusal {
    /// Document 02's number of this refusal.
    pub fn number(self) -> u8 {
        self as u8
    }

    /// This refusal in words: one line, without its newline.
    ///
    /// ```
    /// use shabgozim::MergeRefusal;
    ///
    /// let words = "refused 53: the same tick in both lists";
    /// assert_eq!(MergeRefusal::SameTick.in_words(), words);
    /// ```
    pub fn in_words(self) -> String {
        operator_refusal(self.number())
    }

    fn of(number: u32) -> MergeRefusal {
        match number {
            52 => MergeRefusal::NotRising,
            53 => MergeRefusal::SameTick,
            _ => MergeRefusal::NoRoom,
        }
    }
}

impl MergeTextsRefusal {
    /// The number of this refusal: 91 to 96, or document 02's 53.
    pub fn number(self) -> u8 {
        match self {
            MergeTextsRefusal::NoList(_, refusal) => refusal.number,
            MergeTextsRefusal::SameTick => MergeRefusal::SameTick.number(),
        }
    }

    /// This refusal in words: one line, without its newline. It does not say
    /// whose text it is about.
    ///
    /// ```
    /// use shabgozim::merge_texts;
    ///
    /// let refusal = merge_texts(b"tick word\n", b"tick word\n0 400\n").unwrap_err();
    /// assert_eq!(refusal.in_words(), "refused 92: not a tick and a word (line 2)");
    /// ```
    pub fn in_words(self) -> String {
        match self {
            MergeTextsRefusal::NoList(_, refusal) => refusal.in_words(),
            MergeTextsRefusal::SameTick => MergeRefusal::SameTick.in_words(),
        }
    }
}
