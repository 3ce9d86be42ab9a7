//! What the head makes of a word and of a tick.

use crate::state::{
    in_range, ErrorFlags, MirrorSet, State, COVER_STEP_TICKS, HK_TICKS, MIRROR_TICKS,
    TASK_ACQUISITION, TASK_HOUSEKEEPING, TASK_NONE,
};
use crate::words::{decode, Decoded, Kind, KIND_COUNT};

/// The one word a busy head takes.
pub const STOP_WORD: u16 = 0xC000;

/// What a taken word does besides changing the state.
#[derive(Clone, Copy, Debug, PartialEq, Eq)]
pub enum Act {
    None,
    Exposure,
    Housekeeping,
    /// A cover move, with the ten data bits of its word.
    Cover(u16),
}

/// Why a word is ignored.
#[derive(Clone, Copy, Debug, PartialEq, Eq)]
pub enum Cause {
    StateOutOfRange,
    WrongTime,
    UnknownIdentifier,
    DataOutOfRange,
    OutOfTurn,
}

/// What becomes of a word.
#[derive(Clone, Copy, Debug, PartialEq, Eq)]
pub enum Outcome {
    Taken(Act),
    Ignored(Cause),
}

/// What a busy head is doing.
#[derive(Clone, Copy, Debug, PartialEq, Eq)]
pub enum Task {
    Acquisition,
    Housekeeping,
}

/// What a tick answers.
#[derive(Clone, Copy, Debug, PartialEq, Eq)]
pub enum Ticked {
    /// The state is out of range: number 21.
    Refused(u16),
    NothingDue,
    /// Both blocks are due, after this task and showing these flags.
    BlocksDue {
        task: Task,
        flags: ErrorFlags,
    },
}

/// The phases a word may find the head in; rows of [`GRID`].
#[derive(Clone, Copy)]
enum Phase {
    Idle,
    IdleCoverMoving,
    Busy,
}

const APPLY: u8 = 1;
const IGNORE: u8 = 0;

/// What becomes of each kind (by index) in each phase: idle, idle with the
/// cover moving, busy.
#[rustfmt::skip]
const GRID: [[u8; KIND_COUNT]; 3] = {
    const A: u8 = APPLY;
    const X: u8 = IGNORE;
    [
        // 0 NOP   4 detector    10 IR  12 window  16 CCD  18 lamps     22 mirror     27 cover
        [A,A,A,A,  A,A,A,A,A,A,  A,A,   A,A,A,A,   A,A,    A,A,A,A,     A,A,A,A,A,    A],
        [A,A,A,A,  A,A,A,A,A,A,  A,A,   A,A,A,A,   A,A,    A,A,A,A,     A,A,A,A,A,    X],
        [X,X,X,A,  X,X,X,X,X,X,  X,X,   X,X,X,X,   X,X,    X,X,X,X,     X,X,X,X,X,    X],
    ]
};

impl Cause {
    /// Document 01's number of this cause.
    pub const fn number(self) -> u16 {
        match self {
            Cause::StateOutOfRange => 21,
            Cause::WrongTime => 22,
            Cause::UnknownIdentifier => 23,
            Cause::DataOutOfRange => 24,
            Cause::OutOfTurn => 25,
        }
    }
}

impl Outcome {
    /// 0, 1 for an exposure, 2 for housekeeping or the cover word itself if
    /// taken; the cause's number if ignored.
    pub const fn number(self) -> u16 {
        match self {
            Outcome::Taken(Act::None) => 0,
            Outcome::Taken(Act::Exposure) => 1,
            Outcome::Taken(Act::Housekeeping) => 2,
            Outcome::Taken(Act::Cover(data)) => Kind::Cover.word(data),
            Outcome::Ignored(cause) => cause.number(),
        }
    }
}

/// Gives the head a word; the answer is [`Outcome::number`].
pub fn word(state: &mut State, word: u16) -> u16 {
    receive(state, word).number()
}

/// Gives the head a word.
pub fn receive(state: &mut State, word: u16) -> Outcome {
    if !in_range(state) {
        return Outcome::Ignored(Cause::StateOutOfRange);
    }
    receive_in_range(state, word)
}

/// Gives a word to a head whose state is in range.
pub fn receive_in_range(state: &mut State, word: u16) -> Outcome {
    if state.busy > 0 && word != STOP_WORD {
        state.ir_time_flag = 1;
        state.vis_time_flag = 1;
        return Outcome::Ignored(Cause::WrongTime);
    }
    match decode(word) {
        Decoded::Unknown => unknown_identifier(state),
        Decoded::OutOfRange { kind } => data_out_of_range(state, kind),
        Decoded::Allowed { kind, .. } if grid_entry(state, kind) == IGNORE => cover_moves(state),
        Decoded::Allowed { kind, data } => apply(state, kind, data),
    }
}

/// Lets a tick pass.
pub fn tick(state: &mut State) -> Ticked {
    if !in_range(state) {
        return Ticked::Refused(Cause::StateOutOfRange.number());
    }
    state.mirror_motion = state.mirror_motion.saturating_sub(1);
    state.cover_motion = state.cover_motion.saturating_sub(1);
    if state.busy == 0 {
        return Ticked::NothingDue;
    }
    state.busy -= 1;
    if state.busy > 0 {
        return Ticked::NothingDue;
    }
    end_task(state)
}

fn end_task(state: &mut State) -> Ticked {
    let task = if state.task == TASK_ACQUISITION {
        Task::Acquisition
    } else {
        Task::Housekeeping
    };
    let flags = state.error_flags();
    state.task = TASK_NONE;
    state.clear_error_flags();
    Ticked::BlocksDue { task, flags }
}

fn phase(state: &State) -> Phase {
    if state.busy > 0 {
        Phase::Busy
    } else if state.cover_motion > 0 {
        Phase::IdleCoverMoving
    } else {
        Phase::Idle
    }
}

fn grid_entry(state: &State, kind: Kind) -> u8 {
    GRID[phase(state) as usize][kind as usize]
}

fn unknown_identifier(state: &mut State) -> Outcome {
    state.ir_word_flag = 1;
    state.vis_word_flag = 1;
    Outcome::Ignored(Cause::UnknownIdentifier)
}

fn data_out_of_range(state: &mut State, kind: Kind) -> Outcome {
    match kind {
        Kind::Nop | Kind::Start | Kind::Hk | Kind::Stop => {
            state.ir_word_flag = 1;
            state.vis_word_flag = 1;
        }
        Kind::WinX1 | Kind::WinY1 | Kind::WinX2 | Kind::WinY2 => state.vis_word_flag = 1,
        Kind::CcdDelay | Kind::CcdExpo | Kind::CcdLamp => state.vis_word_flag = 1,
        Kind::SinM | Kind::SinL | Kind::CosM | Kind::CosL => {
            state.ir_scan_flag = 1;
            state.mirror_set = MirrorSet::default();
        }
        Kind::Switch => state.ir_scan_flag = 1,
        _ => state.ir_word_flag = 1,
    }
    Outcome::Ignored(Cause::DataOutOfRange)
}

fn cover_moves(state: &mut State) -> Outcome {
    state.ir_time_flag = 1;
    Outcome::Ignored(Cause::WrongTime)
}

fn out_of_turn(state: &mut State) -> Outcome {
    state.ir_scan_flag = 1;
    state.mirror_set = MirrorSet::default();
    Outcome::Ignored(Cause::OutOfTurn)
}

/// Does what an allowed word in the right phase asks.
fn apply(state: &mut State, kind: Kind, data: u16) -> Outcome {
    let settings = &mut state.settings;
    match kind {
        Kind::Nop => {}
        Kind::Start => return start(state),
        Kind::Hk => return housekeeping(state),
        Kind::Stop => stop(state),
        Kind::IrDetector => settings.detector = data,
        Kind::IrWinMode => settings.window_mode = data,
        Kind::VdetcomM => state.vdetcom_latch = data,
        Kind::VdetcomL => settings.vdetcom = state.vdetcom_latch * 256 + data,
        Kind::VdetadjM => state.vdetadj_latch = data,
        Kind::VdetadjL => settings.vdetadj = state.vdetadj_latch * 256 + data,
        Kind::IrDelay => settings.ir_delay = data,
        Kind::IrExpo => settings.ir_expo = data,
        Kind::WinX1 => settings.x1 = data,
        Kind::WinY1 => settings.y1 = data,
        Kind::WinX2 => settings.x2 = data,
        Kind::WinY2 => settings.y2 = data,
        Kind::CcdDelay => settings.ccd_delay = data,
        Kind::CcdExpo => settings.ccd_expo = data,
        Kind::CcdLamp => settings.ccd_lamp = data,
        Kind::IrLamp => settings.ir_lamp = data,
        Kind::Shutter => settings.shutter = data,
        Kind::Annealing => settings.annealing = data,
        Kind::SinM => begin_mirror_set(state, data),
        Kind::SinL | Kind::CosM | Kind::CosL => return continue_mirror_set(state, kind, data),
        Kind::Switch => switch_motor(state, data),
        Kind::Cover => return move_cover(state, data),
    }
    Outcome::Taken(Act::None)
}

fn start(state: &mut State) -> Outcome {
    state.task = TASK_ACQUISITION;
    state.busy = state.settings.acquisition_length() as u16;
    Outcome::Taken(Act::Exposure)
}

fn housekeeping(state: &mut State) -> Outcome {
    state.task = TASK_HOUSEKEEPING;
    state.busy = HK_TICKS;
    Outcome::Taken(Act::Housekeeping)
}

fn stop(state: &mut State) {
    state.task = TASK_NONE;
    state.busy = 0;
}

fn switch_motor(state: &mut State, data: u16) {
    state.settings.switch = data;
    if data == 0 {
        state.mirror_motion = MIRROR_TICKS;
    }
}

fn move_cover(state: &mut State, data: u16) -> Outcome {
    state.settings.cover_direction = data >> 9;
    state.cover_motion = COVER_STEP_TICKS * (data & 0x7F);
    Outcome::Taken(Act::Cover(data))
}

fn begin_mirror_set(state: &mut State, data: u16) {
    state.mirror_set = MirrorSet {
        received: 1,
        sin_m: data,
        ..MirrorSet::default()
    };
}

/// SIN L, COS M and COS L come second, third and fourth, in that order only.
fn continue_mirror_set(state: &mut State, kind: Kind, data: u16) -> Outcome {
    let set = &mut state.mirror_set;
    match (kind, set.received) {
        (Kind::SinL, 1) => set.sin_l = data,
        (Kind::CosM, 2) => set.cos_m = data,
        (Kind::CosL, 3) => {
            complete_mirror_set(state, data);
            return Outcome::Taken(Act::None);
        }
        _ => return out_of_turn(state),
    }
    set.received += 1;
    Outcome::Taken(Act::None)
}

/// SIN M's sign bit 4 becomes bit 12 of the sine along with its top bits.
fn complete_mirror_set(state: &mut State, cos_l: u16) {
    let set = state.mirror_set;
    state.settings.sine = set.sin_m * 256 + set.sin_l;
    state.settings.cosine = set.cos_m * 256 + cos_l;
    state.mirror_motion = MIRROR_TICKS;
    state.mirror_set = MirrorSet::default();
}
