//! What the CCD operator observes of a run, and when the head is busy in it.

use crate::sides::{Functions, Shown, Typed};
use crate::states::Numbers;
use paper::operators::{CCD_OPERATOR, INFRARED_OPERATOR};
use paper::{CcdRegisters, Given, State, Tick};
use shabgozim::{place, CCD_LENGTH, CCD_READINGS};

/// The places of the registers that the CCD operator's words set.
pub const REGISTERS: [usize; 7] = [
    place::X1,
    place::Y1,
    place::X2,
    place::Y2,
    place::CCD_DELAY,
    place::CCD_EXPO,
    place::CCD_LAMP,
];
/// The flags stand last in the block.
const FLAG_WORD: usize = CCD_LENGTH - 1;

type Registers = [u16; REGISTERS.len()];

/// What the CCD operator observes of one tick; and whether the head is busy as
/// it begins.
#[derive(Clone, Copy, Debug, PartialEq, Eq)]
pub struct Seen {
    pub busy: bool,
    /// Before the word.
    before: Registers,
    /// The answer to the operator's own word.
    own_word: Option<u32>,
    after_word: Registers,
    /// Where blocks are due: the flag word, and the writer's answer above it.
    pub flag_word: Option<u32>,
}

/// What the CCD operator observes of a run; and whether the head is busy at its
/// end.
#[derive(Clone, Debug, PartialEq, Eq)]
pub struct Watched {
    pub ticks: Vec<Seen>,
    pub busy: bool,
    registers: Registers,
}

impl Watched {
    /// By the calls of a side, one after the other.
    pub fn by_calls(side: &Functions, state: &Numbers, run: &[Tick]) -> Watched {
        let mut head = *state;
        let ticks = run.iter().map(|tick| see(side, &mut head, tick)).collect();
        Watched {
            ticks,
            busy: head[place::BUSY] > 0,
            registers: registers(&head),
        }
    }

    /// By the paper's own observation.
    pub fn by_paper(paper: &Typed, state: &Numbers, run: &[Tick]) -> Watched {
        let state = State::from_array(state);
        let observed = (paper.observe)(&state, run);
        let busy = (paper.busy_ticks)(&state, run);
        let ticks = observed.ticks.iter().zip(busy.ticks);
        let ticks = ticks.map(|(seen, busy)| Seen {
            busy,
            before: numbers(&seen.before),
            own_word: seen.own_word.map(u32::from),
            after_word: numbers(&seen.after_word),
            flag_word: seen.vis_flags.map(u32::from),
        });
        Watched {
            ticks: ticks.collect(),
            busy: busy.end,
            registers: numbers(&observed.end),
        }
    }

    /// Whether the head is busy at the same ticks, and at the end in both or
    /// neither.
    pub fn is_as_busy_as(&self, other: &Watched) -> bool {
        let busy = |watched: &Watched| -> Vec<bool> {
            let ticks = watched.ticks.iter().map(|seen| seen.busy);
            ticks.chain([watched.busy]).collect()
        };
        busy(self) == busy(other)
    }

    /// How two of them differ, in words; nothing if they don't.
    pub fn difference(&self, other: &Watched, names: [&str; 2]) -> Option<String> {
        let ticks = self.ticks.iter().zip(&other.ticks).enumerate();
        let mut differences = ticks.filter_map(|(tick, (seen, other))| {
            let difference = seen.difference(other, names)?;
            Some(format!("tick {tick}, {difference}"))
        });
        differences.next().or_else(|| {
            let end = |it: &Watched| format!("busy {}, {:?}", it.busy, it.registers);
            differ("end", [end(self), end(other)], names)
        })
    }
}

impl Seen {
    fn difference(&self, other: &Seen, names: [&str; 2]) -> Option<String> {
        let both = |text: fn(&Seen) -> String| [text(self), text(other)];
        differ("busy", both(|seen| seen.busy.to_string()), names)
            .or_else(|| differ("before", both(|seen| format!("{:?}", seen.before)), names))
            .or_else(|| {
                let texts = both(|seen| format!("{:?}", seen.own_word));
                differ("own word", texts, names)
            })
            .or_else(|| {
                let texts = both(|seen| format!("{:?}", seen.after_word));
                differ("after the word", texts, names)
            })
            .or_else(|| {
                let texts = both(|seen| format!("{:X?}", seen.flag_word));
                differ("flag word", texts, names)
            })
    }
}

fn differ(what: &str, [one, other]: [String; 2], names: [&str; 2]) -> Option<String> {
    let [first, second] = names;
    (one != other).then(|| format!("{what}: {first} {one}, {second} {other}"))
}

/// Gives the head the word of a tick, lets the tick pass, and writes the block
/// that is due.
fn see(side: &Functions, head: &mut Numbers, now: &Tick) -> Seen {
    let (busy, before) = (head[place::BUSY] > 0, registers(head));
    let own_word = give(side, head, now.given);
    let after_word = registers(head);
    let ticked = (side.tick)(head);
    let flag_word = match ticked & 0xFF {
        1 | 2 => Some(flag_word(side, head, ticked, now.vis_latch_up)),
        _ => None,
    };
    Seen {
        busy,
        before,
        own_word,
        after_word,
        flag_word,
    }
}

/// Gives the head a word; the answer, if it is the CCD operator's.
fn give(side: &Functions, head: &mut Numbers, given: Given) -> Option<u32> {
    match given {
        Given::Nothing => None,
        Given::ByCcd(word) => Some((side.pass_on)(head, CCD_OPERATOR, word)),
        Given::ByInfrared(word) => {
            (side.pass_on)(head, INFRARED_OPERATOR, word);
            None
        }
        Given::ByController(word) => {
            (side.word)(head, word);
            None
        }
    }
}

/// The flag word of the CCD block after a tick with this answer.
fn flag_word(side: &Functions, head: &Numbers, ticked: u32, latch_up: bool) -> u32 {
    let shown = Shown {
        flags: ticked >> 8,
        ended: ticked & 0xFF,
        bits: latch_up.into(),
    };
    let mut block = [0; CCD_LENGTH];
    let answer = (side.write_ccd)(head, shown, &[0; CCD_READINGS], &mut block);
    answer << 16 | u32::from(block[FLAG_WORD])
}

fn registers(head: &Numbers) -> Registers {
    REGISTERS.map(|place| head[place])
}

fn numbers(registers: &CcdRegisters) -> Registers {
    let CcdRegisters {
        x1,
        y1,
        x2,
        y2,
        delay,
        expo,
        lamp,
    } = *registers;
    [x1, y1, x2, y2, delay, expo, lamp]
}
