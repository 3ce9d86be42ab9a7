//! Faults in lists of timed words.

use crate::fault::{changes, listed_words, Fault};
use compare::sides::{Paper, Side};
use paper::State;
use shabgozim::{place, MOST_WORDS, STATE_LENGTH};

const TIMED_WORDS: &str = "lists of timed words";
const LIMITS: &str = "lists at the limits";

pub const FAULTS: &[Fault] = &[
    Fault {
        name: "a list ends at the first ignored word",
        put: |sides| sides.paper.list = ends_at_ignored_word,
        part: TIMED_WORDS,
        is_reduced: |text| {
            listed_words(text) == 2 && text.contains("\noutcomes[1]: ") && changes(text) <= 2
        },
    },
    Fault {
        name: "the last word's own tick does not pass",
        put: |sides| sides.paper.list = last_tick_stays,
        part: TIMED_WORDS,
        is_reduced: |text| listed_words(text) == 1 && changes(text) <= 2,
    },
    Fault {
        name: "the ticks before the first word pass",
        put: |sides| sides.paper.list = waits_for_first_tick,
        part: TIMED_WORDS,
        is_reduced: |text| {
            listed_words(text) == 1 && text.contains("\nticks 1\n") && changes(text) <= 2
        },
    },
    Fault {
        name: "a gap is one tick short",
        put: |sides| sides.paper.list = gap_too_short,
        part: TIMED_WORDS,
        is_reduced: |text| {
            listed_words(text) == 2 && text.contains("\nticks 0 1\n") && changes(text) <= 2
        },
    },
    Fault {
        name: "a cover move is told by its data bits",
        put: |sides| sides.paper.list = cover_by_data_bits,
        part: TIMED_WORDS,
        is_reduced: |text| {
            text.starts_with("words 1000\nticks 0\nfrom power-on\n")
                && text.ends_with("\noutcomes[0]: library 0x1000, paper 0x0")
        },
    },
    Fault {
        name: "equal ticks are taken for rising",
        put: |sides| sides.paper.list = equal_ticks_rise,
        part: TIMED_WORDS,
        is_reduced: |text| text == refused_list("words 0000 0000\nticks 0 0", 31),
    },
    Fault {
        name: "the last two ticks may fall",
        put: |sides| sides.paper.list = last_ticks_unjudged,
        part: TIMED_WORDS,
        is_reduced: |text| text == refused_list("words 0000 0000\nticks 0 0", 31),
    },
    Fault {
        name: "a word may be without a tick",
        put: |sides| sides.paper.list = takes_the_shorter_list,
        part: TIMED_WORDS,
        is_reduced: |text| text == refused_list("words 0000\nticks", 31),
    },
    Fault {
        name: "a place past the list is written",
        put: |sides| sides.paper.list = writes_past_list,
        part: TIMED_WORDS,
        is_reduced: |text| {
            text.starts_with("words\nticks\nfrom power-on\n") && text.contains("\noutcomes[0]: ")
        },
    },
    Fault {
        name: "a place is written on refusal",
        put: |sides| sides.paper.list = writes_on_refusal,
        part: TIMED_WORDS,
        is_reduced: |text| text.contains("\noutcomes[0]: ") && listed_words(text) <= 1,
    },
    Fault {
        name: "a word is given before the refusal",
        put: |sides| sides.paper.list = gives_a_word_first,
        part: TIMED_WORDS,
        is_reduced: |text| text.contains("\nstate[") && listed_words(text) <= 2,
    },
    Fault {
        name: "31 is tried before 21",
        put: |sides| sides.paper.list = list_before_state,
        part: LIMITS,
        is_reduced: |text| {
            text.ends_with("\nanswer: library 21, paper 31")
                && listed_words(text) <= 1
                && changes(text) == 1
        },
    },
    Fault {
        name: "256 words are refused",
        put: |sides| sides.paper.list = refuses_256_words,
        part: LIMITS,
        is_reduced: |text| {
            listed_words(text) == 256 && text.ends_with("\nanswer: library 0, paper 31")
        },
    },
    Fault {
        name: "257 words are taken",
        put: |sides| sides.paper.list = takes_257_words,
        part: LIMITS,
        is_reduced: |text| {
            listed_words(text) == 257 && text.ends_with("\nanswer: library 31, paper 0")
        },
    },
    Fault {
        name: "a length is taken modulo 65,536",
        put: |sides| sides.paper.list = length_of_16_bits,
        part: LIMITS,
        is_reduced: |text| text.starts_with("words\nticks 0 1 2 3 and 65532 more\nfrom power-on\n"),
    },
    Fault {
        name: "256 places are taken for too few",
        put: |sides| sides.paper.list = refuses_256_places,
        part: LIMITS,
        is_reduced: |text| {
            listed_words(text) == 256 && text.contains("\nwith room for 256 outcomes\n")
        },
    },
    Fault {
        name: "a gap above 65,535 is cut",
        put: |sides| sides.paper.list = gap_of_16_bits,
        part: LIMITS,
        is_reduced: |text| {
            listed_words(text) == 2 && text.contains("\nticks 0 65536\n") && changes(text) <= 2
        },
    },
    Fault {
        name: "a gap of 2^31 or more is cut",
        put: |sides| sides.paper.list = gap_of_31_bits,
        part: LIMITS,
        is_reduced: |text| {
            listed_words(text) == 2 && text.contains("\nticks 0 2147483648\n") && changes(text) <= 2
        },
    },
    Fault {
        name: "a task that ends with a gap is left in its last tick",
        put: |sides| sides.paper.list = task_ends_late,
        part: LIMITS,
        is_reduced: |text| {
            listed_words(text) == 2 && text.contains("\nticks 0 ") && changes(text) <= 2
        },
    },
    Fault {
        name: "an empty list is done for any state",
        put: |sides| sides.paper.list = empty_list_unjudged,
        part: LIMITS,
        is_reduced: |text| {
            text.starts_with("words\nticks\nfrom power-on")
                && text.ends_with("\nanswer: library 21, paper 0")
                && changes(text) == 1
        },
    },
    Fault {
        name: "the state of a list may be one place longer",
        put: |sides| sides.paper.list = takes_36_places,
        part: LIMITS,
        is_reduced: |text| {
            text.starts_with("words\nticks\nfrom 36 numbers")
                && text.ends_with("\nanswer: library 21, paper 0")
        },
    },
    Fault {
        name: "housekeeping in a list is told for an exposure",
        put: |sides| sides.typed.list = housekeeping_as_exposure,
        part: "unpacked answers",
        is_reduced: |text| text.starts_with("unpacked, from "),
    },
];

const NO_LIST: u32 = 31;

/// The text of a case from power-on that the library refuses.
fn refused_list(lists: &str, number: u32) -> String {
    let from = "from power-on\nwith room for 300 outcomes";
    format!("{lists}\n{from}\nanswer: library {number}, paper 0")
}

/// Gives a list without a fault but for how a gap passes; after the last word
/// there is none.
fn with_gaps(
    state: &mut [u16],
    words: &[u16],
    ticks: &[u32],
    outcomes: &mut [u16],
    pass_gap: fn(&mut [u16], Option<u32>),
) -> u32 {
    let answer = Paper::list(&mut state.to_vec(), words, ticks, &mut outcomes.to_vec());
    if answer != 0 {
        return answer;
    }
    let gaps = ticks.windows(2).map(|pair| Some(pair[1] - pair[0]));
    let steps = words.iter().zip(gaps.chain([None]));
    for ((&word, gap), outcome) in steps.zip(outcomes) {
        *outcome = Paper::word(state, word) as u16;
        pass_gap(state, gap);
    }
    0
}

/// Lets ticks pass, as long as they change something.
fn pass(state: &mut [u16], ticks: u32) {
    for _ in 0..ticks {
        let before = state.to_vec();
        Paper::tick(state);
        if state == before {
            return;
        }
    }
}

fn last_tick_stays(state: &mut [u16], words: &[u16], ticks: &[u32], outcomes: &mut [u16]) -> u32 {
    with_gaps(state, words, ticks, outcomes, |state, gap| {
        pass(state, gap.unwrap_or(0));
    })
}

fn gap_too_short(state: &mut [u16], words: &[u16], ticks: &[u32], outcomes: &mut [u16]) -> u32 {
    with_gaps(state, words, ticks, outcomes, |state, gap| {
        pass(state, gap.map_or(1, |gap| gap - 1));
    })
}

fn gap_of_16_bits(state: &mut [u16], words: &[u16], ticks: &[u32], outcomes: &mut [u16]) -> u32 {
    with_gaps(state, words, ticks, outcomes, |state, gap| {
        pass(state, gap.map_or(1, |gap| gap & 0xFFFF));
    })
}

fn gap_of_31_bits(state: &mut [u16], words: &[u16], ticks: &[u32], outcomes: &mut [u16]) -> u32 {
    with_gaps(state, words, ticks, outcomes, |state, gap| {
        pass(state, gap.map_or(1, |gap| gap & 0x7FFF_FFFF));
    })
}

/// Where a gap is as long as the task, its last tick does not pass.
fn task_ends_late(state: &mut [u16], words: &[u16], ticks: &[u32], outcomes: &mut [u16]) -> u32 {
    with_gaps(state, words, ticks, outcomes, |state, gap| {
        let ticks = gap.unwrap_or(1);
        let just_ends = gap == Some(state[place::BUSY].into());
        pass(state, ticks - u32::from(just_ends));
    })
}

fn ends_at_ignored_word(
    state: &mut [u16],
    words: &[u16],
    ticks: &[u32],
    outcomes: &mut [u16],
) -> u32 {
    let mut foretold = outcomes.to_vec();
    let answer = Paper::list(&mut state.to_vec(), words, ticks, &mut foretold);
    if answer != 0 {
        return answer;
    }
    let ignored = |outcome: &u16| (22..=25).contains(outcome);
    let first = foretold[..words.len()].iter().position(ignored);
    let end = first.map_or(words.len(), |first| first + 1);
    Paper::list(state, &words[..end], &ticks[..end], outcomes)
}

fn waits_for_first_tick(
    state: &mut [u16],
    words: &[u16],
    ticks: &[u32],
    outcomes: &mut [u16],
) -> u32 {
    let answer = Paper::list(&mut state.to_vec(), words, ticks, &mut outcomes.to_vec());
    if let (0, Some(&first)) = (answer, ticks.first()) {
        pass(state, first);
    }
    Paper::list(state, words, ticks, outcomes)
}

fn cover_by_data_bits(
    state: &mut [u16],
    words: &[u16],
    ticks: &[u32],
    outcomes: &mut [u16],
) -> u32 {
    let answer = Paper::list(state, words, ticks, outcomes);
    if answer == 0 {
        let cover = outcomes[..words.len()].iter_mut();
        cover.for_each(|outcome| *outcome &= 0x03FF);
    }
    answer
}

/// Each tick that equals the one before it is moved on by one.
fn equal_ticks_rise(state: &mut [u16], words: &[u16], ticks: &[u32], outcomes: &mut [u16]) -> u32 {
    let mut rising = ticks.to_vec();
    for place in 1..rising.len() {
        if rising[place] == rising[place - 1] {
            rising[place] = rising[place].saturating_add(1);
        }
    }
    Paper::list(state, words, &rising, outcomes)
}

fn last_ticks_unjudged(
    state: &mut [u16],
    words: &[u16],
    ticks: &[u32],
    outcomes: &mut [u16],
) -> u32 {
    let mut judged = ticks.to_vec();
    if let [.., before, last] = &mut judged[..] {
        *last = (*last).max(before.saturating_add(1));
    }
    Paper::list(state, words, &judged, outcomes)
}

fn takes_the_shorter_list(
    state: &mut [u16],
    words: &[u16],
    ticks: &[u32],
    outcomes: &mut [u16],
) -> u32 {
    let words = &words[..words.len().min(ticks.len())];
    Paper::list(state, words, ticks, outcomes)
}

fn writes_past_list(state: &mut [u16], words: &[u16], ticks: &[u32], outcomes: &mut [u16]) -> u32 {
    let answer = Paper::list(state, words, ticks, outcomes);
    if answer == 0 && words.len() < outcomes.len() {
        outcomes[words.len()] = 0;
    }
    answer
}

fn writes_on_refusal(state: &mut [u16], words: &[u16], ticks: &[u32], outcomes: &mut [u16]) -> u32 {
    let answer = Paper::list(state, words, ticks, outcomes);
    if answer != 0 && !outcomes.is_empty() {
        outcomes[0] = 0;
    }
    answer
}

fn gives_a_word_first(
    state: &mut [u16],
    words: &[u16],
    ticks: &[u32],
    outcomes: &mut [u16],
) -> u32 {
    let answer = Paper::list(state, words, ticks, outcomes);
    if let (NO_LIST, Some(&word)) = (answer, words.first()) {
        Paper::word(state, word);
    }
    answer
}

fn list_before_state(state: &mut [u16], words: &[u16], ticks: &[u32], outcomes: &mut [u16]) -> u32 {
    let mut in_range = [0; STATE_LENGTH];
    Paper::power_on(&mut in_range);
    match Paper::list(&mut in_range, words, ticks, &mut outcomes.to_vec()) {
        NO_LIST => NO_LIST,
        _ => Paper::list(state, words, ticks, outcomes),
    }
}

fn refuses_256_words(state: &mut [u16], words: &[u16], ticks: &[u32], outcomes: &mut [u16]) -> u32 {
    let answer = Paper::list(&mut state.to_vec(), words, ticks, &mut outcomes.to_vec());
    match (answer, words.len()) {
        (0, MOST_WORDS) => NO_LIST,
        _ => Paper::list(state, words, ticks, outcomes),
    }
}

/// The first word goes in by a list of its own.
fn takes_257_words(state: &mut [u16], words: &[u16], ticks: &[u32], outcomes: &mut [u16]) -> u32 {
    let rising = ticks.windows(2).all(|pair| pair[0] < pair[1]);
    if [words.len(), ticks.len()] != [257; 2] || !rising || outcomes.len() < 257 {
        return Paper::list(state, words, ticks, outcomes);
    }
    let (first, rest) = outcomes.split_at_mut(1);
    match Paper::list(state, &words[..1], &ticks[..1], first) {
        0 => Paper::list(state, &words[1..], &ticks[1..], rest),
        refusal => refusal,
    }
}

fn length_of_16_bits(state: &mut [u16], words: &[u16], ticks: &[u32], outcomes: &mut [u16]) -> u32 {
    let words = &words[..words.len() % 65_536];
    let ticks = &ticks[..ticks.len() % 65_536];
    Paper::list(state, words, ticks, outcomes)
}

fn refuses_256_places(
    state: &mut [u16],
    words: &[u16],
    ticks: &[u32],
    outcomes: &mut [u16],
) -> u32 {
    match (words.len(), outcomes.len()) {
        (256, 256) => Paper::list(state, words, ticks, &mut outcomes[..255]),
        _ => Paper::list(state, words, ticks, outcomes),
    }
}

fn empty_list_unjudged(
    state: &mut [u16],
    words: &[u16],
    ticks: &[u32],
    outcomes: &mut [u16],
) -> u32 {
    match (words, ticks) {
        ([], []) => 0,
        _ => Paper::list(state, words, ticks, outcomes),
    }
}

fn takes_36_places(state: &mut [u16], words: &[u16], ticks: &[u32], outcomes: &mut [u16]) -> u32 {
    match state.len() {
        36 => Paper::list(&mut state[..STATE_LENGTH], words, ticks, outcomes),
        _ => Paper::list(state, words, ticks, outcomes),
    }
}

fn housekeeping_as_exposure(
    state: &mut State,
    words: &[u16],
    ticks: &[u32],
    outcomes: &mut [u16],
) -> u16 {
    let answer = paper::list(state, words, ticks, outcomes);
    let housekeeping = outcomes.iter_mut().filter(|outcome| **outcome == 2);
    housekeeping.for_each(|outcome| *outcome = 1);
    answer
}
