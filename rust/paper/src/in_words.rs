//! A refusal of a plan in words.

use crate::plan::Refusal;

/// Where the first order of a plan stands.
const FIRST_PLACE: usize = 3;

/// The rule of each number, from 1 on.
const RULES: [&str; 10] = [
    "the state is out of range, busy, or something moves",
    "fewer than 3 bytes",
    "the version is not 1",
    "the bytes after the third are not as many as the length says",
    "an order's length is 0 or past the end",
    "an order's code is not 1-17",
    "an order's length is not that of its code",
    "a field is out of range",
    "a 65th order begins",
    "a buffer is too short",
];

impl Refusal {
    /// This refusal of the plan in words: one line, without its newline. It is
    /// empty for a number that no refused plan has.
    pub fn in_words(&self, plan: &[u8]) -> String {
        let Refusal { number, place, .. } = *self;
        let index = usize::from(number).wrapping_sub(1);
        let Some(rule) = RULES.get(index) else {
            return String::new();
        };
        let order = match number {
            5..=9 => format!(", order {}", order_index(plan, place)),
            _ => String::new(),
        };
        format!("refused {number}: {rule} (byte {place}{order})")
    }
}

/// The index, from 1, of the order whose length byte stands at this place.
fn order_index(plan: &[u8], place: usize) -> usize {
    let mut index = 1;
    let mut at = FIRST_PLACE;
    while at < place {
        let Some(&length) = plan.get(at) else {
            break;
        };
        at += 1 + usize::from(length);
        index += 1;
    }
    index
}
