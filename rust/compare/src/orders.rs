//! Orders of stored plans, and plans made of them.

use crate::random::Random;

/// The most orders a plan may have.
pub const MOST_ORDERS: usize = 64;
/// The place of a plan's first order.
pub const FIRST_PLACE: usize = 3;

// Codes of orders.
pub const VDETCOM: u8 = 1;
pub const IR_TIMES: u8 = 3;
pub const CCD_TIMES: u8 = 4;
pub const WINDOW_MODE: u8 = 5;
pub const WINDOW: u8 = 6;
pub const MIRROR: u8 = 12;
pub const MOTOR: u8 = 13;
pub const COVER: u8 = 14;
pub const EXPOSE: u8 = 15;
pub const HOUSEKEEPING: u8 = 16;
pub const WAIT: u8 = 17;

/// A window's second column less its first.
pub const WINDOW_WIDTH: i32 = 875;

/// A field of an order: how many bytes it has, and its range.
pub struct Field {
    pub bytes: usize,
    least: i32,
    most: i32,
}

const fn byte(most: i32) -> Field {
    Field {
        bytes: 1,
        least: 0,
        most,
    }
}

const fn wide(least: i32, most: i32) -> Field {
    Field {
        bytes: 2,
        least,
        most,
    }
}

/// The fields of each code, from 1 on.
pub const FIELDS: [&[Field]; 17] = [
    &[wide(0, 4095)],
    &[wide(0, 4095)],
    &[wide(0, 1023), wide(0, 1023)],
    &[wide(5, 1023), wide(0, 1023)],
    &[byte(1)],
    &[wide(0, 148), wide(0, 0), wide(875, 1023), wide(511, 511)],
    &[byte(1)],
    &[byte(1), byte(3)],
    &[byte(1), byte(15)],
    &[byte(1), byte(15)],
    &[byte(1), byte(63)],
    &[wide(-4095, 4095), wide(0, 4095)],
    &[byte(1)],
    &[byte(1), byte(1), byte(1), byte(81)],
    &[],
    &[],
    &[wide(0, 65535)],
];

/// An order by its code and the values of its fields.
#[derive(Clone)]
pub struct Order {
    pub code: u8,
    pub values: Vec<i32>,
}

impl Order {
    pub fn new(code: u8, values: &[i32]) -> Order {
        Order {
            code,
            values: values.to_vec(),
        }
    }

    /// An order of a code with fields in range.
    pub fn random(random: &mut Random, code: u8) -> Order {
        let fields = FIELDS[usize::from(code) - 1];
        let values = fields
            .iter()
            .map(|field| random.within(field.least, field.most));
        let mut order = Order {
            code,
            values: values.collect(),
        };
        order.fit_window();
        order
    }

    /// An order of any code; long waits and moves are rare.
    pub fn any(random: &mut Random) -> Order {
        let code = random.within(1, WAIT.into()) as u8;
        let mut order = Order::random(random, code);
        if code == WAIT && !random.once_in(16) {
            order.values[0] %= 100;
        }
        order
    }

    /// Makes a window's second column fit its first.
    pub fn fit_window(&mut self) {
        if self.code == WINDOW {
            self.values[2] = self.values[0] + WINDOW_WIDTH;
        }
    }

    /// The order's bytes, its length byte first.
    pub fn bytes(&self) -> Vec<u8> {
        let mut bytes = vec![0, self.code];
        let fields = FIELDS[usize::from(self.code) - 1];
        for (field, value) in fields.iter().zip(&self.values) {
            let wide = (*value as u16).to_be_bytes();
            bytes.extend(&wide[2 - field.bytes..]);
        }
        bytes[0] = bytes.len() as u8 - 1;
        bytes
    }
}

/// A plan of these orders.
pub fn plan(orders: &[Order]) -> Vec<u8> {
    let body: Vec<u8> = orders.iter().flat_map(Order::bytes).collect();
    with_body(&body)
}

/// A plan with these bytes after version and length.
pub fn with_body(body: &[u8]) -> Vec<u8> {
    let mut plan = vec![1];
    plan.extend((body.len() as u16).to_be_bytes());
    plan.extend(body);
    plan
}

/// A plan by its bytes.
pub fn describe(plan: &[u8]) -> String {
    let bytes = plan.iter().map(|byte| format!(" {byte:02X}"));
    format!("plan{}", bytes.collect::<String>())
}

/// Where each order of a plan stands, as far as its lengths lead.
fn places(plan: &[u8]) -> Vec<std::ops::Range<usize>> {
    let mut places = Vec::new();
    let mut at = FIRST_PLACE;
    while at < plan.len() {
        let end = (at + 1 + usize::from(plan[at])).min(plan.len());
        places.push(at..end);
        at = end;
    }
    places
}

/// The plan without some bytes, its length still as right or wrong.
fn without(plan: &[u8], bytes: std::ops::Range<usize>) -> Vec<u8> {
    let removed = bytes.len() as u16;
    let in_body = bytes.start >= FIRST_PLACE;
    let mut shorter = plan.to_vec();
    shorter.drain(bytes);
    if in_body {
        let length = u16::from_be_bytes([shorter[1], shorter[2]]);
        shorter[1..3].copy_from_slice(&length.wrapping_sub(removed).to_be_bytes());
    }
    shorter
}

/// The plan with an order replaced by the shortest one.
fn with_shortest(plan: &[u8], order: std::ops::Range<usize>) -> Vec<u8> {
    let kept = order.start + 2;
    let mut shorter = without(plan, kept..order.end);
    shorter[order.start..kept].copy_from_slice(&[1, EXPOSE]);
    shorter
}

/// Plans with an order or a byte fewer, a shorter order, or a byte less.
pub fn shorter(plan: &[u8]) -> Vec<Vec<u8>> {
    let orders = places(plan);
    let fewer = orders.iter().map(|order| without(plan, order.clone()));
    let mut plans: Vec<Vec<u8>> = fewer.collect();
    let long = orders.into_iter().filter(|order| order.len() > 2);
    plans.extend(long.map(|order| with_shortest(plan, order)));
    plans.extend((0..plan.len()).map(|at| without(plan, at..at + 1)));
    plans.extend(lesser(plan));
    plans
}

/// Plans with one byte less.
fn lesser(plan: &[u8]) -> Vec<Vec<u8>> {
    let mut plans = Vec::new();
    for (at, &byte) in plan.iter().enumerate() {
        let less = [0, byte / 2, byte.saturating_sub(1)];
        for less in less.into_iter().filter(|&less| less < byte) {
            let mut lesser = plan.to_vec();
            lesser[at] = less;
            plans.push(lesser);
        }
    }
    plans
}
