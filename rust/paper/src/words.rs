//! The 28 kinds of command word: from bits to meaning and back.

/// How many kinds of word there are.
pub const KIND_COUNT: usize = 28;

/// The most steps a cover word may name.
pub const MOST_COVER_STEPS: u16 = 81;

const DATA_BITS: u16 = 0x03FF;
const STEP_BITS: u16 = 0x007F;

/// The kinds, in the order of document 01's table read row by row.
#[derive(Clone, Copy, Debug, PartialEq, Eq)]
#[repr(u8)]
pub enum Kind {
    Nop,
    Start,
    Hk,
    Stop,
    IrDetector,
    IrWinMode,
    VdetcomM,
    VdetcomL,
    VdetadjM,
    VdetadjL,
    IrDelay,
    IrExpo,
    WinX1,
    WinY1,
    WinX2,
    WinY2,
    CcdDelay,
    CcdExpo,
    CcdLamp,
    IrLamp,
    Shutter,
    Annealing,
    SinM,
    SinL,
    CosM,
    CosL,
    Switch,
    Cover,
}

/// Every kind, at its index.
pub const KINDS: [Kind; KIND_COUNT] = [
    Kind::Nop,
    Kind::Start,
    Kind::Hk,
    Kind::Stop,
    Kind::IrDetector,
    Kind::IrWinMode,
    Kind::VdetcomM,
    Kind::VdetcomL,
    Kind::VdetadjM,
    Kind::VdetadjL,
    Kind::IrDelay,
    Kind::IrExpo,
    Kind::WinX1,
    Kind::WinY1,
    Kind::WinX2,
    Kind::WinY2,
    Kind::CcdDelay,
    Kind::CcdExpo,
    Kind::CcdLamp,
    Kind::IrLamp,
    Kind::Shutter,
    Kind::Annealing,
    Kind::SinM,
    Kind::SinL,
    Kind::CosM,
    Kind::CosL,
    Kind::Switch,
    Kind::Cover,
];

/// Document 01's name of each kind.
const NAMES: [&str; KIND_COUNT] = [
    "NOP",
    "START",
    "HK",
    "STOP",
    "IR DETECTOR",
    "IR WIN MODE",
    "VDETCOM M",
    "VDETCOM L",
    "VDETADJ M",
    "VDETADJ L",
    "IR DELAY",
    "IR EXPO",
    "WIN X1",
    "WIN Y1",
    "WIN X2",
    "WIN Y2",
    "CCD DELAY",
    "CCD EXPO",
    "CCD LAMP",
    "IR LAMP",
    "SHUTTER",
    "ANNEALING",
    "SIN M",
    "SIN L",
    "COS M",
    "COS L",
    "SWITCH",
    "COVER",
];

/// First and last allowed word of each kind; a cover word's steps are
/// limited besides.
const ALLOWED: [(u16, u16); KIND_COUNT] = [
    (0x0000, 0x0000), // NOP
    (0x8000, 0x8000), // START
    (0x4000, 0x4000), // HK
    (0xC000, 0xC000), // STOP
    (0xD800, 0xD801), // IR DETECTOR
    (0x9000, 0x9001), // IR WIN MODE
    (0xD000, 0xD00F), // VDETCOM M
    (0x3000, 0x30FF), // VDETCOM L
    (0xB000, 0xB00F), // VDETADJ M
    (0x7000, 0x70FF), // VDETADJ L
    (0xF000, 0xF3FF), // IR DELAY
    (0x0800, 0x0BFF), // IR EXPO
    (0x2800, 0x2BFF), // WIN X1
    (0xA800, 0xA9FF), // WIN Y1
    (0x6800, 0x6BFF), // WIN X2
    (0xE800, 0xE9FF), // WIN Y2
    (0x1805, 0x1BFF), // CCD DELAY
    (0x9800, 0x9BFF), // CCD EXPO
    (0x5800, 0x5807), // CCD LAMP
    (0x8800, 0x881F), // IR LAMP
    (0xC800, 0xC81F), // SHUTTER
    (0x4800, 0x487F), // ANNEALING
    (0x2000, 0x201F), // SIN M
    (0xA000, 0xA0FF), // SIN L
    (0x6000, 0x600F), // COS M
    (0xE000, 0xE0FF), // COS L
    (0x5000, 0x5001), // SWITCH
    (0x1000, 0x13FF), // COVER
];

/// The kind of each of the 64 identifiers, if it has one.
const KIND_OF_IDENTIFIER: [Option<Kind>; 64] = kinds_by_identifier();

const fn kinds_by_identifier() -> [Option<Kind>; 64] {
    let mut table = [None; 64];
    let mut index = 0;
    while index < KIND_COUNT {
        table[(ALLOWED[index].0 >> 10) as usize] = Some(KINDS[index]);
        index += 1;
    }
    table
}

/// What a word is found to be.
#[derive(Clone, Copy, Debug, PartialEq, Eq)]
pub enum Decoded {
    /// One of the kinds, with allowed data.
    Allowed { kind: Kind, data: u16 },
    /// A known identifier with other data.
    OutOfRange { kind: Kind },
    /// An identifier outside the table.
    Unknown,
}

impl Decoded {
    /// The kind by the identifier alone.
    pub const fn kind(self) -> Option<Kind> {
        match self {
            Decoded::Allowed { kind, .. } | Decoded::OutOfRange { kind } => Some(kind),
            Decoded::Unknown => None,
        }
    }
}

impl Kind {
    /// Position in document 01's table, 0 to 27.
    pub const fn index(self) -> u8 {
        self as u8
    }

    /// Document 01's name.
    pub const fn name(self) -> &'static str {
        NAMES[self as usize]
    }

    /// The word of this kind with the given data in its low ten bits.
    pub const fn word(self, data: u16) -> u16 {
        (ALLOWED[self as usize].0 & !DATA_BITS) | (data & DATA_BITS)
    }

    const fn allows(self, word: u16) -> bool {
        let (first, last) = ALLOWED[self as usize];
        let steps_fit = !matches!(self, Kind::Cover) || word & STEP_BITS <= MOST_COVER_STEPS;
        first <= word && word <= last && steps_fit
    }
}

/// Finds the kind and data of a word.
pub fn decode(word: u16) -> Decoded {
    judge(KIND_OF_IDENTIFIER[(word >> 10) as usize], word)
}

/// Judges a word's data by the kind of its identifier, if it has one.
pub(crate) fn judge(kind: Option<Kind>, word: u16) -> Decoded {
    match kind {
        None => Decoded::Unknown,
        Some(kind) if !kind.allows(word) => Decoded::OutOfRange { kind },
        Some(kind) => Decoded::Allowed {
            kind,
            data: word & DATA_BITS,
        },
    }
}

/// The word of a kind (by index) with the given data; none when there is no
/// such kind or the data is not allowed.
pub fn encode(kind: u8, data: u16) -> Option<u16> {
    let kind = *KINDS.get(usize::from(kind))?;
    let word = kind.word(data);
    (data <= DATA_BITS && kind.allows(word)).then_some(word)
}
