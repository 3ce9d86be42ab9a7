//! A head driven through timed words, tick by tick.

use crate::head::{receive, tick, Act, Outcome};
use crate::reading::LoggedAct;
use crate::state::{Settings, State, TASK_ACQUISITION};

/// Demand 3's claims about each word and each acquisition.
#[derive(Clone, Copy, Debug, PartialEq, Eq)]
pub struct Checks {
    /// Every word had its tick before the end.
    pub every_word_delivered: bool,
    pub every_word_taken: bool,
    /// After each word the five flags stood as before it.
    pub flags_unchanged: bool,
    /// From each START until the head was idle, nothing moved.
    pub nothing_moved: bool,
    /// From each START until the head was idle, no setting changed.
    pub settings_unchanged: bool,
}

/// What came of a run.
#[derive(Clone, Debug, PartialEq, Eq)]
pub struct Run {
    pub state: State,
    pub log: Vec<LoggedAct>,
    pub checks: Checks,
}

impl Checks {
    /// Every claim held.
    pub fn all(&self) -> bool {
        self.every_word_delivered
            && self.every_word_taken
            && self.flags_unchanged
            && self.nothing_moved
            && self.settings_unchanged
    }
}

/// At each tick before the end the head gets the word of that tick, if there
/// is one, and then the tick passes.
pub fn run(state: &State, words: &[u16], ticks: &[u32], end: u32) -> Run {
    let mut driver = Driver::new(state);
    let mut timed_words = words.iter().zip(ticks).peekable();
    for now in 0..end {
        if let Some((&word, _)) = timed_words.next_if(|(_, &tick)| tick == now) {
            driver.deliver(word);
        }
        driver.pass_tick();
    }
    driver.run.checks.every_word_delivered =
        timed_words.next().is_none() && words.len() == ticks.len();
    driver.run
}

struct Driver {
    run: Run,
    /// The settings START found, until the head is idle again.
    exposed_under: Option<Settings>,
}

impl Driver {
    fn new(state: &State) -> Driver {
        let checks = Checks {
            every_word_delivered: true,
            every_word_taken: true,
            flags_unchanged: true,
            nothing_moved: true,
            settings_unchanged: true,
        };
        Driver {
            run: Run {
                state: *state,
                log: Vec::new(),
                checks,
            },
            exposed_under: None,
        }
    }

    fn deliver(&mut self, word: u16) {
        let before = self.run.state;
        match receive(&mut self.run.state, word) {
            Outcome::Taken(act) => self.log(act, &before.settings),
            Outcome::Ignored(_) => self.run.checks.every_word_taken = false,
        }
        self.run.checks.flags_unchanged &= raw_flags(&self.run.state) == raw_flags(&before);
        self.check_exposure();
    }

    fn pass_tick(&mut self) {
        tick(&mut self.run.state);
        self.check_exposure();
        if self.run.state.task != TASK_ACQUISITION {
            self.exposed_under = None;
        }
    }

    fn log(&mut self, act: Act, found: &Settings) {
        if act == Act::Exposure {
            self.exposed_under = Some(*found);
        }
        self.run.log.extend(LoggedAct::of(act, found));
    }

    fn check_exposure(&mut self) {
        if let Some(found) = self.exposed_under {
            self.run.checks.nothing_moved &= self.run.state.at_rest();
            self.run.checks.settings_unchanged &= self.run.state.settings == found;
        }
    }
}

fn raw_flags(state: &State) -> [u16; 5] {
    [
        state.ir_time_flag,
        state.ir_word_flag,
        state.ir_scan_flag,
        state.vis_time_flag,
        state.vis_word_flag,
    ]
}
