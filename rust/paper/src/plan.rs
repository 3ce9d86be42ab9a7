//! Stored plans, taken apart order by order.

use crate::state::{in_range, Settings, State, LEAST_CCD_DELAY};
use crate::words::MOST_COVER_STEPS;

/// The most orders a plan may have.
pub const MOST_ORDERS: usize = 64;

const VERSION: u8 = 1;
const MOST_TIME: u16 = 1023;
const MOST_12_BITS: u16 = 4095;
const MOST_X1: u16 = 148;
const WINDOW_WIDTH: u16 = 875;
const LAST_Y: u16 = 511;
const SINE_SIGN: u16 = 1 << 12;

/// What the length byte of each code must say; 0 where there is no such code.
const ORDER_LENGTHS: [u8; 18] = [0, 3, 3, 5, 5, 2, 9, 2, 3, 3, 3, 3, 5, 2, 5, 1, 1, 3];

// Document 01's numbers of refusal.
const HEAD_NOT_READY: u16 = 1;
const TOO_SHORT: u16 = 2;
const WRONG_VERSION: u16 = 3;
const WRONG_PLAN_LENGTH: u16 = 4;
const ORDER_PAST_END: u16 = 5;
const UNKNOWN_CODE: u16 = 6;
const WRONG_ORDER_LENGTH: u16 = 7;
const FIELD_OUT_OF_RANGE: u16 = 8;
const TOO_MANY_ORDERS: u16 = 9;
const BUFFER_TOO_SHORT: u16 = 10;

/// Why and where a plan is refused.
#[derive(Clone, Copy, Debug, PartialEq, Eq)]
pub struct Refusal {
    /// Document 01's number, 1 to 10.
    pub number: u16,
    /// The faulty order's length byte; 0 for 1-4 and 10.
    pub place: usize,
    /// For number 10 alone: how many words the plan has.
    pub count: Option<usize>,
}

/// The four fields of a cover move.
#[derive(Clone, Copy, Debug, PartialEq, Eq)]
pub struct CoverMove {
    pub direction: u8,
    pub wave: u8,
    pub sensors: u8,
    pub steps: u8,
}

/// One order, its fields in range and in register form.
#[derive(Clone, Copy, Debug, PartialEq, Eq)]
pub enum Order {
    Vdetcom(u16),
    Vdetadj(u16),
    IrTimes { delay: u16, expo: u16 },
    CcdTimes { delay: u16, expo: u16 },
    WindowMode(u16),
    Window { x1: u16, y1: u16, x2: u16, y2: u16 },
    Detector(u16),
    CcdLamp(u16),
    IrLamp(u16),
    Shutter(u16),
    Annealing(u16),
    Mirror { sine: u16, cosine: u16 },
    Switch(u16),
    Cover(CoverMove),
    Expose,
    Housekeeping,
    Wait(u16),
}

/// The orders of a plan without a fault.
pub(crate) struct Orders {
    list: [Order; MOST_ORDERS],
    count: usize,
}

impl Refusal {
    pub(crate) fn new(number: u16, place: usize) -> Refusal {
        Refusal {
            number,
            place,
            count: None,
        }
    }

    pub(crate) fn buffer_too_short(count: usize) -> Refusal {
        Refusal {
            number: BUFFER_TOO_SHORT,
            place: 0,
            count: Some(count),
        }
    }
}

impl CoverMove {
    /// The data bits of the cover word for this move.
    pub const fn data(self) -> u16 {
        (self.direction as u16) << 9
            | (self.wave as u16) << 8
            | (self.sensors as u16) << 7
            | self.steps as u16
    }

    /// The move that a cover word's data bits ask for.
    pub const fn from_data(data: u16) -> CoverMove {
        CoverMove {
            direction: (data >> 9 & 1) as u8,
            wave: (data >> 8 & 1) as u8,
            sensors: (data >> 7 & 1) as u8,
            steps: (data & 0x7F) as u8,
        }
    }
}

impl Order {
    /// Sets the registers that this order names to its fields.
    pub fn set(&self, settings: &mut Settings) {
        match *self {
            Order::Vdetcom(value) => settings.vdetcom = value,
            Order::Vdetadj(value) => settings.vdetadj = value,
            Order::IrTimes { delay, expo } => {
                settings.ir_delay = delay;
                settings.ir_expo = expo;
            }
            Order::CcdTimes { delay, expo } => {
                settings.ccd_delay = delay;
                settings.ccd_expo = expo;
            }
            Order::WindowMode(mode) => settings.window_mode = mode,
            Order::Window { x1, y1, x2, y2 } => {
                settings.x1 = x1;
                settings.y1 = y1;
                settings.x2 = x2;
                settings.y2 = y2;
            }
            Order::Detector(value) => settings.detector = value,
            Order::CcdLamp(value) => settings.ccd_lamp = value,
            Order::IrLamp(value) => settings.ir_lamp = value,
            Order::Shutter(value) => settings.shutter = value,
            Order::Annealing(value) => settings.annealing = value,
            Order::Mirror { sine, cosine } => {
                settings.sine = sine;
                settings.cosine = cosine;
            }
            Order::Switch(value) => settings.switch = value,
            Order::Cover(cover) => settings.cover_direction = u16::from(cover.direction),
            Order::Expose | Order::Housekeeping | Order::Wait(_) => {}
        }
    }

    /// How many words this order gives.
    pub fn word_count(&self) -> usize {
        match self {
            Order::Wait(_) => 0,
            Order::Vdetcom(_) | Order::Vdetadj(_) => 2,
            Order::IrTimes { .. } | Order::CcdTimes { .. } => 2,
            Order::Window { .. } | Order::Mirror { .. } => 4,
            _ => 1,
        }
    }

    /// The order of a code and its fields; none if a field is out of range.
    fn from_fields(code: u8, fields: &[u8]) -> Option<Order> {
        match (code, fields) {
            (1, &[a, b]) => up_to(MOST_12_BITS, wide(a, b)).map(Order::Vdetcom),
            (2, &[a, b]) => up_to(MOST_12_BITS, wide(a, b)).map(Order::Vdetadj),
            (3, &[a, b, c, d]) => ir_times(wide(a, b), wide(c, d)),
            (4, &[a, b, c, d]) => ccd_times(wide(a, b), wide(c, d)),
            (5, &[a]) => up_to(1, u16::from(a)).map(Order::WindowMode),
            (6, &[a, b, c, d, e, f, g, h]) => {
                window(wide(a, b), wide(c, d), wide(e, f), wide(g, h))
            }
            (7, &[a]) => up_to(1, u16::from(a)).map(Order::Detector),
            (8, &[a, b]) => on_and_level(a, b, 3).map(Order::CcdLamp),
            (9, &[a, b]) => on_and_level(a, b, 15).map(Order::IrLamp),
            (10, &[a, b]) => on_and_level(a, b, 15).map(Order::Shutter),
            (11, &[a, b]) => on_and_level(a, b, 63).map(Order::Annealing),
            (12, &[a, b, c, d]) => mirror(i16::from_be_bytes([a, b]), wide(c, d)),
            (13, &[a]) => up_to(1, u16::from(a)).map(|on| Order::Switch(1 - on)),
            (14, &[a, b, c, d]) => cover(a, b, c, d),
            (15, &[]) => Some(Order::Expose),
            (16, &[]) => Some(Order::Housekeeping),
            (17, &[a, b]) => Some(Order::Wait(wide(a, b))),
            _ => None,
        }
    }
}

impl Orders {
    fn empty() -> Orders {
        Orders {
            list: [Order::Wait(0); MOST_ORDERS],
            count: 0,
        }
    }

    /// The place of the next order; refused if it would be the 65th.
    fn next_place(&mut self) -> Result<&mut Order, u16> {
        let place = self.list.get_mut(self.count).ok_or(TOO_MANY_ORDERS)?;
        self.count += 1;
        Ok(place)
    }

    pub(crate) fn as_slice(&self) -> &[Order] {
        &self.list[..self.count]
    }
}

/// The orders of a plan for a head in this state, or refusal 1 to 9.
pub(crate) fn orders(state: &State, plan: &[u8]) -> Result<Orders, Refusal> {
    if !in_range(state) || state.busy > 0 || !state.at_rest() {
        return Err(Refusal::new(HEAD_NOT_READY, 0));
    }
    let mut rest = body(plan).map_err(|number| Refusal::new(number, 0))?;
    let mut orders = Orders::empty();
    while let Some((&length, following)) = rest.split_first() {
        let place = plan.len() - rest.len();
        rest = take_order(&mut orders, length, following)
            .map_err(|number| Refusal::new(number, place))?;
    }
    Ok(orders)
}

/// The bytes after version and length.
fn body(plan: &[u8]) -> Result<&[u8], u16> {
    let [version, high, low, body @ ..] = plan else {
        return Err(TOO_SHORT);
    };
    if *version != VERSION {
        return Err(WRONG_VERSION);
    }
    if body.len() != usize::from(wide(*high, *low)) {
        return Err(WRONG_PLAN_LENGTH);
    }
    Ok(body)
}

/// Takes the order after a length byte; gives back what follows the order.
fn take_order<'a>(orders: &mut Orders, length: u8, following: &'a [u8]) -> Result<&'a [u8], u16> {
    let place = orders.next_place()?;
    let (order, rest) = following
        .split_at_checked(usize::from(length))
        .ok_or(ORDER_PAST_END)?;
    let (&code, fields) = order.split_first().ok_or(ORDER_PAST_END)?;
    *place = parse_order(code, length, fields)?;
    Ok(rest)
}

fn parse_order(code: u8, length: u8, fields: &[u8]) -> Result<Order, u16> {
    match ORDER_LENGTHS.get(usize::from(code)) {
        None | Some(0) => Err(UNKNOWN_CODE),
        Some(&expected) if expected != length => Err(WRONG_ORDER_LENGTH),
        Some(_) => Order::from_fields(code, fields).ok_or(FIELD_OUT_OF_RANGE),
    }
}

fn wide(high: u8, low: u8) -> u16 {
    u16::from_be_bytes([high, low])
}

fn up_to(most: u16, value: u16) -> Option<u16> {
    (value <= most).then_some(value)
}

fn ir_times(delay: u16, expo: u16) -> Option<Order> {
    (delay <= MOST_TIME && expo <= MOST_TIME).then_some(Order::IrTimes { delay, expo })
}

fn ccd_times(delay: u16, expo: u16) -> Option<Order> {
    ((LEAST_CCD_DELAY..=MOST_TIME).contains(&delay) && expo <= MOST_TIME)
        .then_some(Order::CcdTimes { delay, expo })
}

fn window(x1: u16, y1: u16, x2: u16, y2: u16) -> Option<Order> {
    (x1 <= MOST_X1 && x2 == x1 + WINDOW_WIDTH && y1 == 0 && y2 == LAST_Y).then_some(Order::Window {
        x1,
        y1,
        x2,
        y2,
    })
}

/// On (or closed) in bit 0, the current or limit above it.
fn on_and_level(on: u8, level: u8, most: u8) -> Option<u16> {
    (on <= 1 && level <= most).then_some(u16::from(on) + 2 * u16::from(level))
}

fn mirror(sine: i16, cosine: u16) -> Option<Order> {
    let magnitude = sine.unsigned_abs();
    let sign = if sine < 0 { SINE_SIGN } else { 0 };
    (magnitude <= MOST_12_BITS && cosine <= MOST_12_BITS).then_some(Order::Mirror {
        sine: sign | magnitude,
        cosine,
    })
}

fn cover(direction: u8, wave: u8, sensors: u8, steps: u8) -> Option<Order> {
    let bits_fit = direction <= 1 && wave <= 1 && sensors <= 1;
    let steps_fit = u16::from(steps) <= MOST_COVER_STEPS;
    (bits_fit && steps_fit).then_some(Order::Cover(CoverMove {
        direction,
        wave,
        sensors,
        steps,
    }))
}
