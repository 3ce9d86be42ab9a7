//! A plan turned into words and the ticks they go at.

use std::iter::Zip;
use std::slice::IterMut;

use crate::plan::{orders, CoverMove, Order, Refusal};
use crate::state::{Settings, State, COVER_STEP_TICKS, HK_TICKS, MIRROR_TICKS};
use crate::words::Kind;

/// How many words a plan gave, and its last clock.
#[derive(Clone, Copy, Debug, PartialEq, Eq)]
pub struct Translation {
    pub count: usize,
    pub end: u32,
}

/// A translation, or why there is none.
pub type Translated = Result<Translation, Refusal>;

/// Translates a plan for a head in the given state. A refusal writes to
/// neither buffer; success fills the first `count` places of each.
pub fn translate(state: &State, plan: &[u8], words: &mut [u16], ticks: &mut [u32]) -> Translated {
    let orders = orders(state, plan)?;
    let count = orders.as_slice().iter().map(Order::word_count).sum();
    if words.len() < count || ticks.len() < count {
        return Err(Refusal::buffer_too_short(count));
    }
    let mut schedule = Schedule::new(words, ticks);
    let mut settings = state.settings;
    for order in orders.as_slice() {
        order.set(&mut settings);
        schedule.add(order, &settings);
    }
    Ok(Translation {
        count,
        end: schedule.clock,
    })
}

/// The clock, the ticks at which the motions will be 0, and the places left
/// in the buffers.
struct Schedule<'a> {
    clock: u32,
    mirror_rest: u32,
    cover_rest: u32,
    places: Zip<IterMut<'a, u16>, IterMut<'a, u32>>,
}

impl<'a> Schedule<'a> {
    fn new(words: &'a mut [u16], ticks: &'a mut [u32]) -> Schedule<'a> {
        Schedule {
            clock: 0,
            mirror_rest: 0,
            cover_rest: 0,
            places: words.iter_mut().zip(ticks),
        }
    }

    /// Adds the words of an order; the settings are those after it.
    fn add(&mut self, order: &Order, settings: &Settings) {
        match *order {
            Order::Vdetcom(value) => self.send_halves(Kind::VdetcomM, Kind::VdetcomL, value),
            Order::Vdetadj(value) => self.send_halves(Kind::VdetadjM, Kind::VdetadjL, value),
            Order::IrTimes { delay, expo } => {
                self.send(Kind::IrDelay, delay);
                self.send(Kind::IrExpo, expo);
            }
            Order::CcdTimes { delay, expo } => {
                self.send(Kind::CcdDelay, delay);
                self.send(Kind::CcdExpo, expo);
            }
            Order::WindowMode(mode) => self.send(Kind::IrWinMode, mode),
            Order::Window { x1, y1, x2, y2 } => {
                self.send(Kind::WinX1, x1);
                self.send(Kind::WinY1, y1);
                self.send(Kind::WinX2, x2);
                self.send(Kind::WinY2, y2);
            }
            Order::Detector(value) => self.send(Kind::IrDetector, value),
            Order::CcdLamp(value) => self.send(Kind::CcdLamp, value),
            Order::IrLamp(value) => self.send(Kind::IrLamp, value),
            Order::Shutter(value) => self.send(Kind::Shutter, value),
            Order::Annealing(value) => self.send(Kind::Annealing, value),
            Order::Mirror { sine, cosine } => self.move_mirror(sine, cosine),
            Order::Switch(value) => self.switch_motor(value),
            Order::Cover(cover) => self.move_cover(cover),
            Order::Expose => self.expose(settings.acquisition_length()),
            Order::Housekeeping => self.request_housekeeping(),
            Order::Wait(ticks) => self.clock += u32::from(ticks),
        }
    }

    /// Puts a word at the clock, which then is the next tick.
    fn send(&mut self, kind: Kind, data: u16) {
        if let Some((word, tick)) = self.places.next() {
            *word = kind.word(data);
            *tick = self.clock;
        }
        self.clock += 1;
    }

    /// The top bits of a value, then its low eight.
    fn send_halves(&mut self, most: Kind, least: Kind, value: u16) {
        self.send(most, value >> 8);
        self.send(least, value & 0xFF);
    }

    /// The sine's sign, bit 12, goes out as bit 4 of SIN M.
    fn move_mirror(&mut self, sine: u16, cosine: u16) {
        self.send_halves(Kind::SinM, Kind::SinL, sine);
        self.send(Kind::CosM, cosine >> 8);
        self.mirror_rest = self.clock + u32::from(MIRROR_TICKS);
        self.send(Kind::CosL, cosine & 0xFF);
    }

    fn switch_motor(&mut self, value: u16) {
        if value == 0 {
            self.mirror_rest = self.clock + u32::from(MIRROR_TICKS);
        }
        self.send(Kind::Switch, value);
    }

    fn move_cover(&mut self, cover: CoverMove) {
        self.clock = self.clock.max(self.cover_rest);
        self.cover_rest = self.clock + u32::from(COVER_STEP_TICKS) * u32::from(cover.steps);
        self.send(Kind::Cover, cover.data());
    }

    fn expose(&mut self, length: u32) {
        self.clock = self.clock.max(self.mirror_rest).max(self.cover_rest);
        let after = self.clock + length;
        self.send(Kind::Start, 0);
        self.clock = after;
    }

    fn request_housekeeping(&mut self) {
        let after = self.clock + u32::from(HK_TICKS);
        self.send(Kind::Hk, 0);
        self.clock = after;
    }
}
