//! A head's state, and what it makes of words and ticks.

use crate::raw;

/// How many numbers a state has.
pub const STATE_LENGTH: usize = 35;

/// Where each number of a state stands.
pub mod place {
    pub const DETECTOR: usize = 0;
    pub const WINDOW_MODE: usize = 1;
    pub const VDETCOM: usize = 2;
    pub const VDETADJ: usize = 3;
    pub const IR_DELAY: usize = 4;
    pub const IR_EXPO: usize = 5;
    pub const CCD_DELAY: usize = 6;
    pub const CCD_EXPO: usize = 7;
    pub const X1: usize = 8;
    pub const Y1: usize = 9;
    pub const X2: usize = 10;
    pub const Y2: usize = 11;
    pub const CCD_LAMP: usize = 12;
    pub const IR_LAMP: usize = 13;
    pub const SHUTTER: usize = 14;
    pub const ANNEALING: usize = 15;
    /// Magnitude in bits 0 to 11, sign in bit 12.
    pub const SINE: usize = 16;
    pub const COSINE: usize = 17;
    /// 0 is on, 1 is off.
    pub const SWITCH: usize = 18;
    /// 1 opens.
    pub const COVER_DIRECTION: usize = 19;
    pub const VDETCOM_LATCH: usize = 20;
    pub const VDETADJ_LATCH: usize = 21;
    pub const IR_TIME_FLAG: usize = 22;
    pub const IR_WORD_FLAG: usize = 23;
    pub const IR_SCAN_FLAG: usize = 24;
    pub const VIS_TIME_FLAG: usize = 25;
    pub const VIS_WORD_FLAG: usize = 26;
    /// 0 none, 1 an acquisition, 2 housekeeping.
    pub const TASK: usize = 27;
    pub const BUSY: usize = 28;
    pub const MIRROR_MOTION: usize = 29;
    pub const COVER_MOTION: usize = 30;
    /// How many words of a begun mirror set have come.
    pub const SET_WORDS: usize = 31;
    pub const SET_SIN_M: usize = 32;
    pub const SET_SIN_L: usize = 33;
    pub const SET_COS_M: usize = 34;
    /// The settings stand before this place.
    pub const SETTINGS_END: usize = 20;
}

/// A head's state, by its numbers; see [`place`]. Any may be out of range.
#[derive(Clone, Copy, Debug, PartialEq, Eq)]
pub struct State {
    pub numbers: [u16; STATE_LENGTH],
}

/// What becomes of a word.
#[derive(Clone, Copy, Debug, PartialEq, Eq)]
pub enum Outcome {
    Taken(Act),
    Ignored(Cause),
}

/// What a taken word does besides changing the state.
#[derive(Clone, Copy, Debug, PartialEq, Eq)]
pub enum Act {
    None,
    Exposure,
    Housekeeping,
    Cover(CoverMove),
}

/// The fields of a cover move.
#[derive(Clone, Copy, Debug, PartialEq, Eq)]
pub struct CoverMove {
    pub opens: bool,
    pub wave: bool,
    pub sensors: bool,
    pub steps: u8,
}

/// Why a word is ignored; each with document 01's number.
#[derive(Clone, Copy, Debug, PartialEq, Eq)]
pub enum Cause {
    StateOutOfRange = 21,
    WrongTime = 22,
    UnknownIdentifier = 23,
    DataOutOfRange = 24,
    OutOfTurn = 25,
}

/// What a tick brings.
#[derive(Clone, Copy, Debug, PartialEq, Eq)]
pub enum Ticked {
    NothingDue,
    /// Both blocks are due, after this task and showing these flags.
    BlocksDue {
        ended: Task,
        flags: ErrorFlags,
    },
    /// The state is out of range: document 01's 21.
    Refused,
}

/// What a busy head does.
#[derive(Clone, Copy, Debug, PartialEq, Eq)]
pub enum Task {
    Acquisition,
    Housekeeping,
}

/// The five error flags.
#[derive(Clone, Copy, Debug, Default, PartialEq, Eq)]
pub struct ErrorFlags {
    pub ir_time: bool,
    pub ir_word: bool,
    pub ir_scan: bool,
    pub vis_time: bool,
    pub vis_word: bool,
}

impl State {
    /// The state of a head just switched on.
    pub fn power_on() -> State {
        let mut numbers = [0; STATE_LENGTH];
        raw::power_on(&mut numbers);
        State { numbers }
    }

    /// Whether every number is in its range.
    pub fn in_range(&self) -> bool {
        raw::in_range(&self.numbers) == 0
    }

    /// Gives the head a word.
    pub fn word(&mut self, word: u16) -> Outcome {
        Outcome::of(raw::word(&mut self.numbers, word))
    }

    /// Lets a tick pass.
    pub fn tick(&mut self) -> Ticked {
        Ticked::of(raw::tick(&mut self.numbers))
    }

    /// The settings, in the order of [`place`].
    pub fn settings(&self) -> &[u16] {
        &self.numbers[..place::SETTINGS_END]
    }

    /// The five error flags as they stand.
    pub fn error_flags(&self) -> ErrorFlags {
        let set = |place: usize| self.numbers[place] != 0;
        ErrorFlags {
            ir_time: set(place::IR_TIME_FLAG),
            ir_word: set(place::IR_WORD_FLAG),
            ir_scan: set(place::IR_SCAN_FLAG),
            vis_time: set(place::VIS_TIME_FLAG),
            vis_word: set(place::VIS_WORD_FLAG),
        }
    }

    /// Whether a task is under way.
    pub fn is_busy(&self) -> bool {
        self.numbers[place::BUSY] > 0
    }

    /// Whether neither mirror nor cover moves.
    pub fn is_at_rest(&self) -> bool {
        self.numbers[place::MIRROR_MOTION] == 0 && self.numbers[place::COVER_MOTION] == 0
    }
}

impl Outcome {
    pub(crate) fn of(answer: u32) -> Outcome {
        match answer {
            0 => Outcome::Taken(Act::None),
            1 => Outcome::Taken(Act::Exposure),
            2 => Outcome::Taken(Act::Housekeeping),
            21 => Outcome::Ignored(Cause::StateOutOfRange),
            22 => Outcome::Ignored(Cause::WrongTime),
            23 => Outcome::Ignored(Cause::UnknownIdentifier),
            24 => Outcome::Ignored(Cause::DataOutOfRange),
            25 => Outcome::Ignored(Cause::OutOfTurn),
            word => Outcome::Taken(Act::Cover(CoverMove::of(word))),
        }
    }

    /// Whether the word was taken.
    pub fn is_taken(self) -> bool {
        matches!(self, Outcome::Taken(_))
    }
}

impl CoverMove {
    /// The move that a cover word asks for.
    fn of(word: u32) -> CoverMove {
        CoverMove {
            opens: word >> 9 & 1 == 1,
            wave: word >> 8 & 1 == 1,
            sensors: word >> 7 & 1 == 1,
            steps: (word & 0x7F) as u8,
        }
    }
}

impl Cause {
    /// Document 01's number of this cause.
    pub fn number(self) -> u8 {
        self as u8
    }
}

impl Ticked {
    fn of(answer: u32) -> Ticked {
        let flags = ErrorFlags::of(answer >> 8);
        match answer & 0xFF {
            0 => Ticked::NothingDue,
            1 => Ticked::BlocksDue {
                ended: Task::Acquisition,
                flags,
            },
            2 => Ticked::BlocksDue {
                ended: Task::Housekeeping,
                flags,
            },
            _ => Ticked::Refused,
        }
    }
}

impl ErrorFlags {
    /// IR time in bit 0, then IR word, scan, VIS time, VIS word.
    fn of(bits: u32) -> ErrorFlags {
        let set = |bit: u32| bits >> bit & 1 == 1;
        ErrorFlags {
            ir_time: set(0),
            ir_word: set(1),
            ir_scan: set(2),
            vis_time: set(3),
            vis_word: set(4),
        }
    }

    /// The inverse of `of`.
    pub(crate) fn bits(self) -> u32 {
        u32::from(self.ir_time)
            | u32::from(self.ir_word) << 1
            | u32::from(self.ir_scan) << 2
            | u32::from(self.vis_time) << 3
            | u32::from(self.vis_word) << 4
    }
}
