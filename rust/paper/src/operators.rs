//! Two operators on one head (document 02, request P6): whose words each may
//! give, what the controller passes on, and what the CCD operator observes.
//!
//! The CCD operator is document 02's conductor of the CCD words, the infrared
//! operator its other conductor, and the controller its desk.

use crate::blocks::{write_ccd, CCD_LENGTH, CCD_READINGS};
use crate::head::{tick, word, Cause, Task, Ticked};
use crate::state::{in_range, ErrorFlags, State};
use crate::words::{decode, Decoded, Kind, KINDS};

/// The number of the CCD operator.
pub const CCD_OPERATOR: u8 = 0;
/// The number of the infrared operator.
pub const INFRARED_OPERATOR: u8 = 1;

/// The number of a word that is not passed on.
pub const NOT_PASSED_ON: u8 = 51;

const NO_GROUP: u8 = 3;

/// Whose words a kind belongs to.
#[derive(Clone, Copy, Debug, PartialEq, Eq)]
#[repr(u8)]
pub enum Group {
    /// The CCD operator's (document 02: the conductor of the CCD words).
    Ccd,
    /// The infrared operator's (document 02: the other conductor).
    Infrared,
    /// The controller's (document 02: the desk).
    Controller,
}

impl Group {
    /// The group of a kind.
    pub fn of(kind: Kind) -> Group {
        match kind {
            Kind::WinX1 | Kind::WinY1 | Kind::WinX2 | Kind::WinY2 => Group::Ccd,
            Kind::CcdDelay | Kind::CcdExpo | Kind::CcdLamp => Group::Ccd,
            Kind::Start | Kind::Hk | Kind::Stop | Kind::Nop => Group::Controller,
            _ => Group::Infrared,
        }
    }

    /// The group that an operator may use, if there is such an operator.
    pub fn of_operator(operator: u8) -> Option<Group> {
        match operator {
            CCD_OPERATOR => Some(Group::Ccd),
            INFRARED_OPERATOR => Some(Group::Infrared),
            _ => None,
        }
    }

    /// 0 for CCD, 1 for infrared, 2 for the controller.
    pub const fn number(self) -> u8 {
        self as u8
    }
}

/// The number of the group of a kind (by index), or 3 when there is no such
/// kind.
pub fn group_number(kind: u8) -> u8 {
    let kind = KINDS.get(usize::from(kind));
    kind.map_or(NO_GROUP, |&kind| Group::of(kind).number())
}

/// Gives the head an operator's word if the controller passes it on.
///
/// The answer is 21 for a state out of range, or else 51 for a word that is
/// not passed on, and both leave the state as given; or else it is the head's
/// own, as [`word`] numbers it.
pub fn pass_on(state: &mut State, operator: u8, code: u16) -> u16 {
    if !in_range(state) {
        return Cause::StateOutOfRange.number();
    }
    if state.busy > 0 || !may_give(operator, code) {
        return u16::from(NOT_PASSED_ON);
    }
    word(state, code)
}

/// There is such an operator, and the word is allowed and of its group.
fn may_give(operator: u8, code: u16) -> bool {
    match decode(code) {
        Decoded::Allowed { kind, .. } => Group::of_operator(operator) == Some(Group::of(kind)),
        Decoded::OutOfRange { .. } | Decoded::Unknown => false,
    }
}

/// The word given at a tick, if there is one, and who gives it. An operator's
/// word is passed on by [`pass_on`]; the controller's goes straight to the
/// head. Any word may be given.
#[derive(Clone, Copy, Debug, PartialEq, Eq)]
pub enum Given {
    Nothing,
    ByCcd(u16),
    ByInfrared(u16),
    ByController(u16),
}

/// One tick of a run: the word comes first, and then the tick passes.
#[derive(Clone, Copy, Debug, PartialEq, Eq)]
pub struct Tick {
    pub given: Given,
    /// The caller's latch-up bit, for the VIS flag word if blocks are due.
    pub vis_latch_up: bool,
}

/// The registers that the CCD operator's words set.
#[derive(Clone, Copy, Debug, PartialEq, Eq)]
pub struct CcdRegisters {
    pub x1: u16,
    pub y1: u16,
    pub x2: u16,
    pub y2: u16,
    pub delay: u16,
    pub expo: u16,
    pub lamp: u16,
}

impl CcdRegisters {
    /// These registers of a head.
    pub fn of(state: &State) -> CcdRegisters {
        let settings = &state.settings;
        CcdRegisters {
            x1: settings.x1,
            y1: settings.y1,
            x2: settings.x2,
            y2: settings.y2,
            delay: settings.ccd_delay,
            expo: settings.ccd_expo,
            lamp: settings.ccd_lamp,
        }
    }
}

/// What the CCD operator observes of one tick.
#[derive(Clone, Copy, Debug, PartialEq, Eq)]
pub struct Seen {
    /// The registers before the word.
    pub before: CcdRegisters,
    /// The number that the operator's own word got.
    pub own_word: Option<u16>,
    /// The registers between the word and the tick.
    pub after_word: CcdRegisters,
    /// The flag word of the CCD block, if blocks are due.
    pub vis_flags: Option<u16>,
}

/// What the CCD operator observes of a run.
#[derive(Clone, Debug, PartialEq, Eq)]
pub struct Observation {
    pub ticks: Vec<Seen>,
    /// The registers at the end.
    pub end: CcdRegisters,
}

/// When the head is busy in a run.
#[derive(Clone, Debug, PartialEq, Eq)]
pub struct BusyTicks {
    /// For each tick: busy as it begins, before its word.
    pub ticks: Vec<bool>,
    /// Busy after the last tick.
    pub end: bool,
}

/// What the CCD operator observes of a run from this state. From a state out
/// of range every word gets 21 and nothing changes.
pub fn observe(state: &State, run: &[Tick]) -> Observation {
    let mut head = *state;
    let ticks = run.iter().map(|tick| see(&mut head, tick)).collect();
    let end = CcdRegisters::of(&head);
    Observation { ticks, end }
}

/// When the head is busy in a run from this state.
pub fn busy_ticks(state: &State, run: &[Tick]) -> BusyTicks {
    let mut head = *state;
    let busy_before = |tick| {
        let busy = head.busy > 0;
        see(&mut head, tick);
        busy
    };
    let ticks = run.iter().map(busy_before).collect();
    let end = head.busy > 0;
    BusyTicks { ticks, end }
}

/// Gives the head the word of a tick and lets the tick pass.
fn see(head: &mut State, now: &Tick) -> Seen {
    let before = CcdRegisters::of(head);
    let own_word = give(head, now.given);
    let after_word = CcdRegisters::of(head);
    let vis_flags = match tick(head) {
        Ticked::BlocksDue { task, flags } => Some(flag_word(head, task, &flags, now.vis_latch_up)),
        Ticked::NothingDue | Ticked::Refused(_) => None,
    };
    Seen {
        before,
        own_word,
        after_word,
        vis_flags,
    }
}

/// Gives the head a word; tells what the CCD operator's own word got.
fn give(head: &mut State, given: Given) -> Option<u16> {
    match given {
        Given::Nothing => None,
        Given::ByCcd(code) => Some(pass_on(head, CCD_OPERATOR, code)),
        Given::ByInfrared(code) => {
            pass_on(head, INFRARED_OPERATOR, code);
            None
        }
        Given::ByController(code) => {
            word(head, code);
            None
        }
    }
}

/// The last word of the CCD block. The writer refuses no state that a tick
/// left.
fn flag_word(head: &State, task: Task, flags: &ErrorFlags, latch_up: bool) -> u16 {
    let mut block = [0; CCD_LENGTH];
    let acquisition_ended = task == Task::Acquisition;
    let readings = [0; CCD_READINGS];
    write_ccd(
        head,
        flags,
        acquisition_ended,
        &readings,
        latch_up,
        &mut block,
    );
    block[CCD_LENGTH - 1]
}
