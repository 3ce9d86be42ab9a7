//! A run: the words of a side given to its own head, tick by tick.

use crate::plan_answer::PlanAnswer;
use crate::sides::Functions;
use crate::states::Numbers;
use paper::{CoverMove, LoggedAct, Settings};
use shabgozim::{place, MOST_WORDS};
use std::ops::RangeInclusive;

const EXPOSURE: u32 = 1;
const HOUSEKEEPING: u32 = 2;
const IGNORED: RangeInclusive<u32> = 21..=25;
const COVER_DATA: u16 = 0x03FF;

/// The timed words of a plan.
pub struct Schedule {
    words: Vec<(u32, u16)>,
    pub end: u32,
}

/// A head as it is given words and ticks.
pub struct Run {
    side: Functions,
    head: Numbers,
    pub log: Vec<LoggedAct>,
    /// The settings START found, until the head is idle again.
    exposed_under: Option<Settings>,
}

impl Schedule {
    /// A plan translated by this side, or the refusal.
    pub fn of(side: &Functions, state: &Numbers, plan: &[u8]) -> Result<Schedule, PlanAnswer> {
        let mut words = [0; MOST_WORDS];
        let mut ticks = [0; MOST_WORDS];
        let answer = PlanAnswer::of((side.translate)(state, plan, &mut words, &mut ticks));
        if answer.number != 0 {
            return Err(answer);
        }
        let timed = ticks.into_iter().zip(words).take(answer.count);
        Ok(Schedule {
            words: timed.collect(),
            end: answer.end_or_place,
        })
    }
}

impl Run {
    pub fn new(side: &Functions, head: &Numbers) -> Run {
        Run {
            side: *side,
            head: *head,
            log: Vec::new(),
            exposed_under: None,
        }
    }

    pub fn settings(&self) -> Settings {
        settings(&self.head)
    }

    pub fn is_busy(&self) -> bool {
        self.head[place::BUSY] > 0
    }

    /// Gives every word at its tick and lets all ticks before the end pass.
    pub fn whole(&mut self, schedule: &Schedule) -> Result<(), String> {
        let mut words = schedule.words.iter().peekable();
        for now in 0..schedule.end {
            if let Some(&(_, word)) = words.next_if(|(tick, _)| *tick == now) {
                self.give(word)?;
            }
            (self.side.tick)(&mut self.head);
            self.check_exposure()?;
        }
        match words.next() {
            None => Ok(()),
            Some((tick, word)) => Err(format!("word {word:04X} of tick {tick} was never given")),
        }
    }

    fn give(&mut self, word: u16) -> Result<(), String> {
        let before = self.head;
        let answer = (self.side.word)(&mut self.head, word);
        if IGNORED.contains(&answer) {
            return Err(format!("word {word:04X} was ignored: {answer}"));
        }
        if flags(&self.head) != flags(&before) {
            return Err(format!("word {word:04X} changed a flag"));
        }
        self.log(answer, settings(&before));
        self.check_exposure()
    }

    /// Logs the act of a taken word, with the settings the word found.
    fn log(&mut self, answer: u32, found: Settings) {
        match answer {
            0 => {}
            EXPOSURE => {
                self.exposed_under = Some(found);
                self.log.push(LoggedAct::Exposure(found));
            }
            HOUSEKEEPING => self.log.push(LoggedAct::Housekeeping),
            word => {
                let cover = CoverMove::from_data(word as u16 & COVER_DATA);
                self.log.push(LoggedAct::Cover(cover));
            }
        }
    }

    /// From START until the head is idle nothing moves and no setting changes.
    fn check_exposure(&mut self) -> Result<(), String> {
        let Some(found) = self.exposed_under else {
            return Ok(());
        };
        if self.head[place::MIRROR_MOTION] > 0 || self.head[place::COVER_MOTION] > 0 {
            return Err("something moves during an acquisition".into());
        }
        if self.settings() != found {
            return Err("a setting changed during an acquisition".into());
        }
        if !self.is_busy() {
            self.exposed_under = None;
        }
        Ok(())
    }
}

fn settings(head: &Numbers) -> Settings {
    paper::State::from_array(head).settings
}

fn flags(head: &Numbers) -> &[u16] {
    &head[place::IR_TIME_FLAG..=place::VIS_WORD_FLAG]
}
