//! The packed answer of a translation, taken apart.

use std::fmt;

/// Number, count, and the end or the place of a refusal.
#[derive(Clone, Copy, PartialEq, Eq)]
pub struct PlanAnswer {
    pub number: u8,
    pub count: usize,
    pub end_or_place: u32,
}

impl PlanAnswer {
    /// Every bit of the answer is in one of the three.
    pub fn of(answer: u64) -> PlanAnswer {
        PlanAnswer {
            number: answer as u8,
            count: (answer as u32 >> 8) as usize,
            end_or_place: (answer >> 32) as u32,
        }
    }
}

impl fmt::Display for PlanAnswer {
    fn fmt(&self, out: &mut fmt::Formatter) -> fmt::Result {
        let PlanAnswer {
            number,
            count,
            end_or_place,
        } = self;
        write!(
            out,
            "number {number}, count {count}, end or place {end_or_place}"
        )
    }
}
