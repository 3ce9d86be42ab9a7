//! Faults in translation.

use crate::fault::{orders, Fault};
use compare::plan_answer::PlanAnswer;
use compare::sides::{Library, Paper, Side};
use shabgozim::MOST_WORDS;

pub const FAULTS: &[Fault] = &[
    Fault {
        name: "256 words are refused",
        put: |sides| sides.paper.translate = refuses_256_words,
        part: "plans at the limits",
        is_reduced: |text| orders(text) == 64,
    },
    Fault {
        name: "150 words or more are refused",
        put: |sides| sides.paper.translate = refuses_150_words,
        part: "plans at the limits",
        is_reduced: |text| orders(text) == 38,
    },
    Fault {
        name: "256 places are taken for too few",
        put: |sides| sides.paper.translate = refuses_256_places,
        part: "plans at the limits",
        is_reduced: |text| orders(text) == 64,
    },
    Fault {
        name: "255 places are taken for enough",
        put: |sides| sides.paper.translate = fills_255_places,
        part: "plans at the limits",
        is_reduced: |text| orders(text) == 64,
    },
    Fault {
        name: "the end is one too small above 800,000",
        put: |sides| sides.paper.translate = end_too_small,
        part: "plans at the limits",
        is_reduced: |text| orders(text) == 13 && text.contains("end or place 800001"),
    },
    Fault {
        name: "a tick is one too small above 4,000,000",
        put: |sides| sides.paper.translate = tick_too_small,
        part: "plans at the limits",
        is_reduced: |text| orders(text) == 63,
    },
    Fault {
        name: "the count is one that no plan can have",
        put: |sides| sides.paper.translate = count_too_large,
        part: "plans at the limits",
        is_reduced: |text| text.starts_with("plan 01 00 00\nfrom power-on\n"),
    },
    Fault {
        name: "a place past the count is written",
        put: |sides| sides.paper.translate = writes_past_count,
        part: "plan fields",
        is_reduced: |text| text.starts_with("plan 01 00 00\nfrom power-on\n"),
    },
    Fault {
        name: "a place is written on refusal",
        put: |sides| sides.paper.translate = writes_on_refusal,
        part: "plans, states, buffers",
        is_reduced: |text| {
            text.starts_with("plan\nfrom power-on\n") && text.contains("\nticks[0]: ")
        },
    },
    Fault {
        name: "the length is tried before the version",
        put: |sides| sides.paper.translate = length_before_version,
        part: "plan forms",
        is_reduced: |text| text.starts_with("plan 00 00 01\nfrom power-on\n"),
    },
    Fault {
        name: "the place of a faulty order is one too large",
        put: |sides| sides.paper.translate = place_too_large,
        part: "damaged plans",
        is_reduced: |text| orders(text) == 2,
    },
    Fault {
        name: "START goes one tick too early",
        put: |sides| sides.library.translate = start_too_early,
        part: "demand 3",
        is_reduced: |text| orders(text) == 2,
    },
    Fault {
        name: "256 words are refused, run on the head",
        put: |sides| sides.library.translate = refuses_256_words,
        part: "demand 3 at the limits",
        is_reduced: |text| orders(text) == 64,
    },
];

const TOO_SHORT: u64 = 10;

/// What the translation will answer where both buffers have room.
fn foretold(state: &[u16], plan: &[u8]) -> PlanAnswer {
    let (mut words, mut ticks) = ([0; MOST_WORDS], [0; MOST_WORDS]);
    PlanAnswer::of(Paper::translate(state, plan, &mut words, &mut ticks))
}

fn too_short(count: usize) -> u64 {
    TOO_SHORT | (count as u64) << 8
}

fn refuses_256_words(state: &[u16], plan: &[u8], words: &mut [u16], ticks: &mut [u32]) -> u64 {
    match foretold(state, plan).count {
        256 => too_short(256),
        _ => Paper::translate(state, plan, words, ticks),
    }
}

fn refuses_150_words(state: &[u16], plan: &[u8], words: &mut [u16], ticks: &mut [u32]) -> u64 {
    match foretold(state, plan).count {
        count @ 150.. => too_short(count),
        _ => Paper::translate(state, plan, words, ticks),
    }
}

fn refuses_256_places(state: &[u16], plan: &[u8], words: &mut [u16], ticks: &mut [u32]) -> u64 {
    match (foretold(state, plan).count, words.len(), ticks.len()) {
        (256, 256, _) | (256, _, 256) => too_short(256),
        _ => Paper::translate(state, plan, words, ticks),
    }
}

/// One buffer of 255 places is filled where the other has room.
fn fills_255_places(state: &[u16], plan: &[u8], words: &mut [u16], ticks: &mut [u32]) -> u64 {
    if words.len() != 255 || ticks.len() < 256 {
        return Paper::translate(state, plan, words, ticks);
    }
    let mut longer = words.to_vec();
    longer.push(0);
    let answer = Paper::translate(state, plan, &mut longer, ticks);
    words.copy_from_slice(&longer[..255]);
    answer
}

fn end_too_small(state: &[u16], plan: &[u8], words: &mut [u16], ticks: &mut [u32]) -> u64 {
    let answer = Paper::translate(state, plan, words, ticks);
    match PlanAnswer::of(answer) {
        PlanAnswer {
            number: 0,
            end_or_place: 800_001..,
            ..
        } => answer - (1 << 32),
        _ => answer,
    }
}

fn tick_too_small(state: &[u16], plan: &[u8], words: &mut [u16], ticks: &mut [u32]) -> u64 {
    let answer = Paper::translate(state, plan, words, ticks);
    let PlanAnswer { number, count, .. } = PlanAnswer::of(answer);
    if number == 0 {
        let late = ticks[..count].iter_mut().filter(|tick| **tick > 4_000_000);
        late.for_each(|tick| *tick -= 1);
    }
    answer
}

fn count_too_large(state: &[u16], plan: &[u8], words: &mut [u16], ticks: &mut [u32]) -> u64 {
    let answer = Paper::translate(state, plan, words, ticks);
    match PlanAnswer::of(answer).number {
        0 => answer | 0xFFFF << 8,
        _ => answer,
    }
}

fn writes_past_count(state: &[u16], plan: &[u8], words: &mut [u16], ticks: &mut [u32]) -> u64 {
    let answer = Paper::translate(state, plan, words, ticks);
    let PlanAnswer { number, count, .. } = PlanAnswer::of(answer);
    if number == 0 && count < words.len() {
        words[count] = 0;
    }
    answer
}

fn writes_on_refusal(state: &[u16], plan: &[u8], words: &mut [u16], ticks: &mut [u32]) -> u64 {
    let answer = Paper::translate(state, plan, words, ticks);
    if PlanAnswer::of(answer).number != 0 && !ticks.is_empty() {
        ticks[0] = 0;
    }
    answer
}

fn length_before_version(state: &[u16], plan: &[u8], words: &mut [u16], ticks: &mut [u32]) -> u64 {
    let answer = Paper::translate(state, plan, words, ticks);
    if answer != 3 {
        return answer;
    }
    let mut plan = plan.to_vec();
    plan[0] = 1;
    match Paper::translate(state, &plan, &mut [], &mut []) {
        4 => 4,
        _ => answer,
    }
}

fn place_too_large(state: &[u16], plan: &[u8], words: &mut [u16], ticks: &mut [u32]) -> u64 {
    let answer = Paper::translate(state, plan, words, ticks);
    match PlanAnswer::of(answer) {
        PlanAnswer {
            number: 5..=8,
            end_or_place: 4..,
            ..
        } => answer + (1 << 32),
        _ => answer,
    }
}

/// Where START waits, it goes a tick before the head is at rest.
fn start_too_early(state: &[u16], plan: &[u8], words: &mut [u16], ticks: &mut [u32]) -> u64 {
    const START: u16 = 0x8000;
    let answer = Library::translate(state, plan, words, ticks);
    let PlanAnswer { number, count, .. } = PlanAnswer::of(answer);
    if number == 0 {
        for at in 1..count {
            let waits = ticks[at] > ticks[at - 1] + 1;
            ticks[at] -= u32::from(words[at] == START && waits);
        }
    }
    answer
}
