//! What is refused, by number and in words.

/// Why a pixel map, a request or a word is refused.
#[derive(Clone, Copy, Debug, PartialEq, Eq)]
pub enum Refusal {
    MapLength,
    SpareBit,
    UnknownRequest,
    ValueOutOfRange,
}

impl Refusal {
    /// The refusal with this number, if there is one.
    pub fn of(number: u8) -> Option<Refusal> {
        match number {
            41 => Some(Refusal::MapLength),
            42 => Some(Refusal::SpareBit),
            43 => Some(Refusal::UnknownRequest),
            44 => Some(Refusal::ValueOutOfRange),
            _ => None,
        }
    }

    /// Document 02's number.
    pub fn number(self) -> u8 {
        match self {
            Refusal::MapLength => 41,
            Refusal::SpareBit => 42,
            Refusal::UnknownRequest => 43,
            Refusal::ValueOutOfRange => 44,
        }
    }

    /// This refusal in words: one line, without its newline.
    pub fn in_words(self) -> String {
        let reason = match self {
            Refusal::MapLength => "a pixel map has 14,783 bytes",
            Refusal::SpareBit => "a spare bit after the last pixel is set",
            Refusal::UnknownRequest => "no such request",
            Refusal::ValueOutOfRange => "the request's value is out of range",
        };
        format!("refused {}: {reason}", self.number())
    }
}
