//! Shared by the tests: a small generator, random plans and states, and a
//! slow translator that steps the head tick by tick.
#![allow(dead_code)]

use paper::state::{MIRROR_TICKS, MOST_ACQUISITION_TICKS, MOST_COVER_TICKS};
use paper::{tick, word, State};

/// A deterministic xorshift generator.
pub struct Random(u64);

impl Random {
    pub fn new(seed: u64) -> Random {
        Random(seed.wrapping_mul(0x9E37_79B9_7F4A_7C15) | 1)
    }

    pub fn next(&mut self) -> u64 {
        self.0 ^= self.0 << 13;
        self.0 ^= self.0 >> 7;
        self.0 ^= self.0 << 17;
        self.0
    }

    /// A value from `least` to `most`, the ends among them more often.
    pub fn within(&mut self, least: u16, most: u16) -> u16 {
        match self.next() % 8 {
            0 => least,
            1 => most,
            _ => least + (self.next() % (u64::from(most - least) + 1)) as u16,
        }
    }

    pub fn word(&mut self) -> u16 {
        (self.next() >> 24) as u16
    }

    pub fn byte(&mut self) -> u8 {
        (self.next() >> 24) as u8
    }

    pub fn bit(&mut self) -> bool {
        self.next() & 0x100 != 0
    }
}

/// A stored plan of the given orders, each a code and its fields.
pub fn plan_of(orders: &[Vec<u8>]) -> Vec<u8> {
    let body: Vec<u8> = orders
        .iter()
        .flat_map(|order| std::iter::once(order.len() as u8).chain(order.iter().copied()))
        .collect();
    plan_with_body(&body)
}

/// A stored plan with these bytes after the length.
pub fn plan_with_body(body: &[u8]) -> Vec<u8> {
    let mut plan = vec![1];
    plan.extend((body.len() as u16).to_be_bytes());
    plan.extend(body);
    plan
}

/// A code followed by two-byte fields.
pub fn wide_order(code: u8, fields: &[u16]) -> Vec<u8> {
    let mut order = vec![code];
    order.extend(fields.iter().flat_map(|field| field.to_be_bytes()));
    order
}

/// A random order with fields in range.
pub fn random_order(random: &mut Random) -> Vec<u8> {
    let code = random.within(1, 17) as u8;
    match code {
        1 | 2 => wide_order(code, &[random.within(0, 4095)]),
        3 => {
            let most = if random.bit() { 1023 } else { 20 };
            wide_order(3, &[random.within(0, most), random.within(0, most)])
        }
        4 => {
            let most = if random.bit() { 1023 } else { 20 };
            wide_order(4, &[random.within(5, most), random.within(0, most)])
        }
        5 | 7 | 13 => vec![code, random.within(0, 1) as u8],
        6 => {
            let x1 = random.within(0, 148);
            wide_order(6, &[x1, 0, x1 + 875, 511])
        }
        8 => vec![8, random.within(0, 1) as u8, random.within(0, 3) as u8],
        9 | 10 => vec![code, random.within(0, 1) as u8, random.within(0, 15) as u8],
        11 => vec![11, random.within(0, 1) as u8, random.within(0, 63) as u8],
        12 => {
            let sine = random.within(0, 8190) as i16 - 4095;
            wide_order(12, &[sine as u16, random.within(0, 4095)])
        }
        14 => {
            let most = if random.bit() { 81 } else { 3 };
            let bits = random.byte();
            vec![
                14,
                bits & 1,
                bits >> 1 & 1,
                bits >> 2 & 1,
                random.within(0, most) as u8,
            ]
        }
        17 => {
            let most = if random.next() & 63 == 0 { 65535 } else { 60 };
            wide_order(17, &[random.within(0, most)])
        }
        _ => vec![code],
    }
}

/// A random plan of up to 64 orders.
pub fn random_orders(random: &mut Random) -> Vec<Vec<u8>> {
    let count = random.within(0, 64);
    (0..count).map(|_| random_order(random)).collect()
}

/// A random state in range: idle and at rest unless `active`.
pub fn random_state(random: &mut Random, active: bool) -> State {
    const MOST: [u16; 20] = [
        1, 1, 4095, 4095, 1023, 1023, 1023, 1023, 1023, 511, 1023, 511, 7, 31, 31, 127, 8191, 4095,
        1, 1,
    ];
    let mut numbers = [0; 35];
    for (number, most) in numbers.iter_mut().zip(MOST) {
        *number = random.within(0, most);
    }
    numbers[6] = random.within(5, 1023);
    for latch in &mut numbers[20..22] {
        *latch = random.within(0, 15);
    }
    for flag in &mut numbers[22..27] {
        *flag = random.within(0, 1);
    }
    if active {
        numbers[27] = random.within(0, 2);
        numbers[28] = match numbers[27] {
            0 => 0,
            1 => random.within(1, MOST_ACQUISITION_TICKS),
            _ => random.within(1, 3),
        };
        numbers[29] = random.within(0, MIRROR_TICKS);
        numbers[30] = random.within(0, MOST_COVER_TICKS);
    }
    numbers[31] = random.within(0, 3);
    for (place, most) in [(1, 31), (2, 255), (3, 15)] {
        if numbers[31] >= place {
            numbers[31 + usize::from(place)] = random.within(0, most);
        }
    }
    State::from_array(&numbers)
}

/// A word to send, or ticks to wait.
#[derive(Clone, Copy)]
pub enum Step {
    Word(u16),
    Wait(u16),
}

/// The words and waits of an order, from its bytes alone.
pub fn steps(order: &[u8]) -> Vec<Step> {
    let wide = |at: usize| u16::from_be_bytes([order[at], order[at + 1]]);
    let narrow = |at: usize| u16::from(order[at]);
    let words = match order[0] {
        1 => vec![0xD000 + wide(1) / 256, 0x3000 + wide(1) % 256],
        2 => vec![0xB000 + wide(1) / 256, 0x7000 + wide(1) % 256],
        3 => vec![0xF000 + wide(1), 0x0800 + wide(3)],
        4 => vec![0x1800 + wide(1), 0x9800 + wide(3)],
        5 => vec![0x9000 + narrow(1)],
        6 => vec![
            0x2800 + wide(1),
            0xA800 + wide(3),
            0x6800 + wide(5),
            0xE800 + wide(7),
        ],
        7 => vec![0xD800 + narrow(1)],
        8 => vec![0x5800 + narrow(1) + 2 * narrow(2)],
        9 => vec![0x8800 + narrow(1) + 2 * narrow(2)],
        10 => vec![0xC800 + narrow(1) + 2 * narrow(2)],
        11 => vec![0x4800 + narrow(1) + 2 * narrow(2)],
        12 => mirror_words(wide(1) as i16, wide(3)),
        13 => vec![0x5001 - narrow(1)],
        14 => vec![0x1000 + 512 * narrow(1) + 256 * narrow(2) + 128 * narrow(3) + narrow(4)],
        15 => vec![0x8000],
        16 => vec![0x4000],
        _ => return vec![Step::Wait(wide(1))],
    };
    words.into_iter().map(Step::Word).collect()
}

fn mirror_words(sine: i16, cosine: u16) -> Vec<u16> {
    let magnitude = sine.unsigned_abs();
    let sign = if sine < 0 { 16 } else { 0 };
    vec![
        0x2000 + sign + magnitude / 256,
        0xA000 + magnitude % 256,
        0x6000 + cosine / 256,
        0xE000 + cosine % 256,
    ]
}

/// Translates orders by stepping a head tick by tick: each word goes at the
/// first tick not before the clock at which the head takes it and, for START,
/// both motions are 0.
pub fn slow_translation(state: &State, orders: &[Vec<u8>]) -> (Vec<(u16, u32)>, u32) {
    let mut head = *state;
    let mut now = 0;
    let mut clock = 0;
    let mut sent = Vec::new();
    for step in orders.iter().flat_map(|order| steps(order)) {
        match step {
            Step::Wait(ticks) => clock += u32::from(ticks),
            Step::Word(code) => {
                while now < clock || !may_go(&head, code) {
                    tick(&mut head);
                    now += 1;
                }
                word(&mut head, code);
                sent.push((code, now));
                clock = now + u32::from(head.busy.max(1));
            }
        }
    }
    (sent, clock)
}

fn may_go(head: &State, code: u16) -> bool {
    let mut copy = *head;
    let answer = word(&mut copy, code);
    let taken = !(21..=25).contains(&answer);
    let at_rest = head.mirror_motion == 0 && head.cover_motion == 0;
    taken && (code != 0x8000 || at_rest)
}
