//! Faults in merged lists.

use crate::fault::Fault;
use compare::sides::{Library, Merged, Paper, Side};

const MERGING: &str = "merging";

const NOT_RISING: u32 = 52;
const SAME_TICK: u32 = 53;
const NO_ROOM: u32 = 54;
const EVERY: &str = "with room for every entry";

pub const FAULTS: &[Fault] = &[
    Fault {
        name: "the later tick comes first",
        put: |sides| sides.paper.merge = later_first,
        part: MERGING,
        is_reduced: |text| {
            is_merge(text, 1, 1)
                && text.ends_with(" the rest of 1 from 0\npaper 0, 1 entries, the rest of 0 from 0")
        },
    },
    Fault {
        name: "words are compared with ticks for what both lists have",
        put: |sides| sides.paper.merge = same_entry_for_same_tick,
        part: MERGING,
        is_reduced: |text| is_merge(text, 1, 1) && answers(text, 53, 0),
    },
    Fault {
        name: "words are compared with ticks for what rises",
        put: |sides| sides.library.merge = rising_entries,
        part: MERGING,
        is_reduced: |text| entries(text) == 2 && answers(text, 0, 52),
    },
    Fault {
        name: "words alone decide what comes first",
        put: |sides| sides.paper.merge = by_words,
        part: MERGING,
        is_reduced: |text| text.starts_with("CCD list 0:0001\ninfrared list 1:0000\n"),
    },
    Fault {
        name: "the rest begins one entry late",
        put: |sides| sides.paper.merge = rest_one_late,
        part: MERGING,
        is_reduced: |text| entries(text) == 1 && text.contains(" from 0\npaper 0, 0 entries, "),
    },
    Fault {
        name: "the rest begins with the last merged entry",
        put: |sides| sides.paper.merge = rest_one_early,
        part: MERGING,
        is_reduced: |text| entries(text) == 3 && text.contains(" from 1\npaper "),
    },
    Fault {
        name: "54 is judged before 53",
        put: |sides| sides.paper.merge = room_before_same_tick,
        part: MERGING,
        is_reduced: |text| {
            is_merge(text, 1, 1)
                && answers(text, 53, 54)
                && text.contains("\nwith room for 0 entries\n")
        },
    },
    Fault {
        name: "53 is judged before 52",
        put: |sides| sides.library.merge = same_tick_before_rising,
        part: MERGING,
        is_reduced: |text| entries(text) == 3 && answers(text, 53, 52),
    },
    Fault {
        name: "54 is judged before 52",
        put: |sides| sides.paper.merge = room_before_rising,
        part: MERGING,
        is_reduced: |text| entries(text) <= 3 && answers(text, 52, 54),
    },
    Fault {
        name: "entries are written on refusal",
        put: |sides| sides.paper.merge = writes_on_refusal,
        part: MERGING,
        is_reduced: |text| entries(text) <= 3 && text.contains("\nmerged[0]: library 0xAAAA"),
    },
    Fault {
        name: "entries are written as far as there is room",
        put: |sides| sides.library.merge = writes_what_fits,
        part: MERGING,
        is_reduced: |text| {
            entries(text) <= 3 && text.contains("\nwith room for 1 entries\nmerged[0]: ")
        },
    },
    Fault {
        name: "a place after the count is written",
        put: |sides| sides.paper.merge = writes_past_count,
        part: MERGING,
        is_reduced: |text| entries(text) == 0 && text.contains("\nmerged[0]: library 0xAAAA"),
    },
    Fault {
        name: "the rest is written after the merged entries",
        put: |sides| sides.paper.merge = writes_rest,
        part: MERGING,
        is_reduced: |text| entries(text) == 1 && text.contains("\nmerged[0]: library 0xAAAA"),
    },
    Fault {
        name: "the count is one too large",
        put: |sides| sides.paper.merge = count_too_large,
        part: MERGING,
        is_reduced: |text| entries(text) == 0 && text.contains("\npaper 0, 1 entries, "),
    },
    Fault {
        name: "the lists are merged to the end of both",
        put: |sides| sides.library.merge = merges_to_the_end,
        part: MERGING,
        is_reduced: |text| entries(text) == 1 && text.contains(" library 0, 1 entries, "),
    },
    Fault {
        name: "where both are empty the rest is the CCD list's",
        put: |sides| sides.paper.merge = rest_of_ccd_where_empty,
        part: MERGING,
        is_reduced: |text| {
            text == format!(
                "CCD list\ninfrared list\n{EVERY}\nanswer: library 0, 0 entries, the rest of 1 \
                 from 0\npaper 0, 0 entries, the rest of 0 from 0"
            )
        },
    },
    Fault {
        name: "the rest is told of the other list",
        put: |sides| sides.library.merge = rest_of_the_other,
        part: MERGING,
        is_reduced: |text| {
            entries(text) == 0 && text.contains(" library 0, 0 entries, the rest of 0 ")
        },
    },
    Fault {
        name: "the rest of a refusal is the whole infrared list",
        put: |sides| sides.paper.merge = refused_from_the_start,
        part: MERGING,
        is_reduced: |text| entries(text) <= 3 && text.ends_with(", the rest of 1 from 0"),
    },
    Fault {
        name: "the rest of a refusal is the CCD list's",
        put: |sides| sides.paper.merge = refused_rest_of_ccd,
        part: MERGING,
        is_reduced: |text| entries(text) == 2 && text.contains(", the rest of 0 from "),
    },
    Fault {
        name: "there must be room for both lists",
        put: |sides| sides.paper.merge = room_for_both,
        part: MERGING,
        is_reduced: |text| {
            entries(text) == 1
                && answers(text, 0, 54)
                && text.contains("\nwith room for 0 entries\n")
        },
    },
    Fault {
        name: "just enough room is taken for too little",
        put: |sides| sides.paper.merge = refuses_just_enough,
        part: MERGING,
        is_reduced: |text| {
            entries(text) == 0
                && answers(text, 0, 54)
                && text.contains("\nwith room for 0 entries\n")
        },
    },
    Fault {
        name: "one place less is taken for enough",
        put: |sides| sides.paper.merge = one_place_short,
        part: MERGING,
        is_reduced: |text| {
            is_merge(text, 1, 1)
                && answers(text, 54, 0)
                && text.contains("\nwith room for 0 entries\n")
        },
    },
    Fault {
        name: "a tick is taken modulo 2^32",
        put: |sides| sides.paper.merge = tick_of_32_bits,
        part: MERGING,
        is_reduced: |text| entries(text) == 2 && text.contains(" 4294967296:"),
    },
    Fault {
        name: "an entry is taken for a number with a sign",
        put: |sides| sides.library.merge = entries_with_sign,
        part: MERGING,
        is_reduced: |text| entries(text) == 2 && text.contains(" 140737488355328:"),
    },
    Fault {
        name: "the infrared list's ticks may fall",
        put: |sides| sides.paper.merge = infrared_unjudged,
        part: MERGING,
        is_reduced: |text| is_merge(text, 0, 2) && answers(text, 52, 0),
    },
    Fault {
        name: "the CCD list's ticks may fall",
        put: |sides| sides.library.merge = ccd_unjudged,
        part: MERGING,
        is_reduced: |text| is_merge(text, 2, 0) && answers(text, 0, 52),
    },
    Fault {
        name: "equal ticks are taken for rising",
        put: |sides| sides.paper.merge = equal_ticks_rise,
        part: MERGING,
        is_reduced: |text| entries(text) == 2 && answers(text, 52, 0),
    },
    Fault {
        name: "the last tick of a list is not judged",
        put: |sides| sides.paper.merge = last_tick_unjudged,
        part: MERGING,
        is_reduced: |text| entries(text) == 2 && answers(text, 52, 0),
    },
    Fault {
        name: "the same tick is seen at the same place alone",
        put: |sides| sides.paper.merge = same_tick_at_same_place,
        part: MERGING,
        is_reduced: |text| entries(text) == 3 && answers(text, 53, 0),
    },
    Fault {
        name: "a length is taken modulo 65,536",
        put: |sides| sides.paper.merge = length_of_16_bits,
        part: MERGING,
        is_reduced: |text| entries(text) >= 65_536,
    },
    Fault {
        name: "words are lost",
        put: |sides| sides.paper.merge = ticks_alone,
        part: MERGING,
        is_reduced: |text| {
            is_merge(text, 1, 1) && text.contains("\nmerged[0]: library 0x1, paper 0x0")
        },
    },
];

/// How many entries a list of a case has.
fn length(text: &str, list: &str) -> usize {
    let line = text.lines().find_map(|line| line.strip_prefix(list));
    let line = line.expect("a list");
    let (shown, more) = line.split_once(" and ").unwrap_or((line, "0 more"));
    let more: usize = more.trim_end_matches(" more").parse().expect("a number");
    shown.split_whitespace().count() + more
}

fn is_merge(text: &str, ccd: usize, infrared: usize) -> bool {
    (length(text, "CCD list"), length(text, "infrared list")) == (ccd, infrared)
}

/// How many entries both lists of a case have.
fn entries(text: &str) -> usize {
    length(text, "CCD list") + length(text, "infrared list")
}

/// Whether the library and the paper answer with these numbers.
fn answers(text: &str, library: u32, paper: u32) -> bool {
    text.contains(&format!("\nanswer: library {library}, "))
        && text.contains(&format!("\npaper {paper}, "))
}

fn tick(entry: u64) -> u64 {
    entry >> 16
}

fn rises(list: &[u64]) -> bool {
    list.windows(2).all(|pair| tick(pair[0]) < tick(pair[1]))
}

fn has_common_tick(ccd: &[u64], infrared: &[u64]) -> bool {
    let in_infrared = |&entry: &u64| infrared.iter().any(|&other| tick(other) == tick(entry));
    ccd.iter().any(in_infrared)
}

fn refused(number: u32, infrared: &[u64]) -> Merged {
    Merged {
        number,
        rest_of: 1,
        count: 0,
        rest_start: infrared.len(),
    }
}

/// Both lists merged by what decides between two entries, until one has run out,
/// without any refusal; there must be room.
fn merged_by(
    ccd: &[u64],
    infrared: &[u64],
    merged: &mut [u64],
    is_before: fn(u64, u64) -> bool,
) -> Merged {
    let (mut from_ccd, mut from_infrared) = (0, 0);
    while from_ccd < ccd.len() && from_infrared < infrared.len() {
        let (one, other) = (ccd[from_ccd], infrared[from_infrared]);
        let at = from_ccd + from_infrared;
        match is_before(one, other) {
            true => {
                merged[at] = one;
                from_ccd += 1;
            }
            false => {
                merged[at] = other;
                from_infrared += 1;
            }
        }
    }
    let (rest_of, rest_start) = match from_ccd < ccd.len() {
        true => (0, from_ccd),
        false => (1, from_infrared),
    };
    Merged {
        number: 0,
        rest_of,
        count: from_ccd + from_infrared,
        rest_start,
    }
}

/// The same where the paper refuses nothing, else the paper's refusal.
fn accepted_by(
    ccd: &[u64],
    infrared: &[u64],
    merged: &mut [u64],
    is_before: fn(u64, u64) -> bool,
) -> Merged {
    let answer = Paper::merge(ccd, infrared, &mut merged.to_vec());
    if answer.number != 0 {
        return answer;
    }
    let mut places = vec![0; ccd.len() + infrared.len()];
    let answer = merged_by(ccd, infrared, &mut places, is_before);
    let count = answer.count.min(merged.len());
    merged[..count].copy_from_slice(&places[..count]);
    answer
}

/// Merges what is refused with this number, if there is room.
fn merges_refused(ccd: &[u64], infrared: &[u64], merged: &mut [u64], number: u32) -> Merged {
    let answer = Paper::merge(ccd, infrared, merged);
    match answer.number == number && merged.len() >= ccd.len() + infrared.len() {
        true => merged_by(ccd, infrared, merged, |one, other| tick(one) < tick(other)),
        false => answer,
    }
}

fn later_first(ccd: &[u64], infrared: &[u64], merged: &mut [u64]) -> Merged {
    accepted_by(ccd, infrared, merged, |one, other| tick(one) > tick(other))
}

fn by_words(ccd: &[u64], infrared: &[u64], merged: &mut [u64]) -> Merged {
    accepted_by(ccd, infrared, merged, |one, other| {
        one as u16 <= other as u16
    })
}

fn same_entry_for_same_tick(ccd: &[u64], infrared: &[u64], merged: &mut [u64]) -> Merged {
    match ccd.iter().any(|entry| infrared.contains(entry)) {
        true => Paper::merge(ccd, infrared, merged),
        false => merges_refused(ccd, infrared, merged, SAME_TICK),
    }
}

fn rising_entries(ccd: &[u64], infrared: &[u64], merged: &mut [u64]) -> Merged {
    let rises = |list: &[u64]| list.windows(2).all(|pair| pair[0] < pair[1]);
    match rises(ccd) && rises(infrared) {
        true => merges_refused(ccd, infrared, merged, NOT_RISING),
        false => Library::merge(ccd, infrared, merged),
    }
}

fn rest_one_late(ccd: &[u64], infrared: &[u64], merged: &mut [u64]) -> Merged {
    let mut answer = Paper::merge(ccd, infrared, merged);
    let list = [ccd, infrared][answer.rest_of as usize];
    if answer.rest_start < list.len() {
        answer.rest_start += 1;
    }
    answer
}

fn rest_one_early(ccd: &[u64], infrared: &[u64], merged: &mut [u64]) -> Merged {
    let mut answer = Paper::merge(ccd, infrared, merged);
    if answer.number == 0 {
        answer.rest_start = answer.rest_start.saturating_sub(1);
    }
    answer
}

fn room_before_same_tick(ccd: &[u64], infrared: &[u64], merged: &mut [u64]) -> Merged {
    let answer = Paper::merge(ccd, infrared, merged);
    match answer.number == SAME_TICK && merged.is_empty() {
        true => refused(NO_ROOM, infrared),
        false => answer,
    }
}

fn same_tick_before_rising(ccd: &[u64], infrared: &[u64], merged: &mut [u64]) -> Merged {
    match has_common_tick(ccd, infrared) {
        true => refused(SAME_TICK, infrared),
        false => Library::merge(ccd, infrared, merged),
    }
}

fn room_before_rising(ccd: &[u64], infrared: &[u64], merged: &mut [u64]) -> Merged {
    let answer = Paper::merge(ccd, infrared, merged);
    let are_both = !ccd.is_empty() && !infrared.is_empty();
    match answer.number == NOT_RISING && are_both && merged.is_empty() {
        true => refused(NO_ROOM, infrared),
        false => answer,
    }
}

fn writes_on_refusal(ccd: &[u64], infrared: &[u64], merged: &mut [u64]) -> Merged {
    let answer = Paper::merge(ccd, infrared, merged);
    if let (1.., Some(first), Some(&entry)) = (answer.number, merged.first_mut(), ccd.first()) {
        *first = entry;
    }
    answer
}

fn writes_what_fits(ccd: &[u64], infrared: &[u64], merged: &mut [u64]) -> Merged {
    let answer = Library::merge(ccd, infrared, merged);
    if answer.number == NO_ROOM {
        let mut whole = vec![0; ccd.len() + infrared.len()];
        Library::merge(ccd, infrared, &mut whole);
        let places = merged.len();
        merged.copy_from_slice(&whole[..places]);
    }
    answer
}

fn writes_past_count(ccd: &[u64], infrared: &[u64], merged: &mut [u64]) -> Merged {
    let answer = Paper::merge(ccd, infrared, merged);
    if let (0, Some(next)) = (answer.number, merged.get_mut(answer.count)) {
        *next = 0;
    }
    answer
}

fn writes_rest(ccd: &[u64], infrared: &[u64], merged: &mut [u64]) -> Merged {
    let answer = Paper::merge(ccd, infrared, merged);
    if answer.number == 0 {
        let rest = &[ccd, infrared][answer.rest_of as usize][answer.rest_start..];
        let places = merged[answer.count..].iter_mut();
        places.zip(rest).for_each(|(place, entry)| *place = *entry);
    }
    answer
}

fn count_too_large(ccd: &[u64], infrared: &[u64], merged: &mut [u64]) -> Merged {
    let mut answer = Paper::merge(ccd, infrared, merged);
    answer.count += usize::from(answer.number == 0);
    answer
}

fn merges_to_the_end(ccd: &[u64], infrared: &[u64], merged: &mut [u64]) -> Merged {
    let mut answer = Library::merge(ccd, infrared, merged);
    let rest = &[ccd, infrared][answer.rest_of as usize][answer.rest_start..];
    let end = answer.count + rest.len();
    if answer.number == 0 && end <= merged.len() {
        merged[answer.count..end].copy_from_slice(rest);
        (answer.count, answer.rest_of, answer.rest_start) = (end, 1, infrared.len());
    }
    answer
}

fn rest_of_ccd_where_empty(ccd: &[u64], infrared: &[u64], merged: &mut [u64]) -> Merged {
    let mut answer = Paper::merge(ccd, infrared, merged);
    if ccd.is_empty() && infrared.is_empty() {
        answer.rest_of = 0;
    }
    answer
}

fn rest_of_the_other(ccd: &[u64], infrared: &[u64], merged: &mut [u64]) -> Merged {
    let mut answer = Library::merge(ccd, infrared, merged);
    answer.rest_of = 1 - answer.rest_of;
    answer
}

fn refused_from_the_start(ccd: &[u64], infrared: &[u64], merged: &mut [u64]) -> Merged {
    let mut answer = Paper::merge(ccd, infrared, merged);
    if answer.number != 0 {
        answer.rest_start = 0;
    }
    answer
}

fn refused_rest_of_ccd(ccd: &[u64], infrared: &[u64], merged: &mut [u64]) -> Merged {
    let mut answer = Paper::merge(ccd, infrared, merged);
    if answer.number != 0 {
        (answer.rest_of, answer.rest_start) = (0, ccd.len());
    }
    answer
}

fn room_for_both(ccd: &[u64], infrared: &[u64], merged: &mut [u64]) -> Merged {
    match merged.len() < ccd.len() + infrared.len() && rises(ccd) && rises(infrared) {
        true if !has_common_tick(ccd, infrared) => refused(NO_ROOM, infrared),
        _ => Paper::merge(ccd, infrared, merged),
    }
}

fn refuses_just_enough(ccd: &[u64], infrared: &[u64], merged: &mut [u64]) -> Merged {
    let answer = Paper::merge(ccd, infrared, &mut merged.to_vec());
    match answer.number == 0 && answer.count == merged.len() {
        true => refused(NO_ROOM, infrared),
        false => Paper::merge(ccd, infrared, merged),
    }
}

fn one_place_short(ccd: &[u64], infrared: &[u64], merged: &mut [u64]) -> Merged {
    let mut longer = [&*merged, &[0]].concat();
    let answer = Paper::merge(ccd, infrared, &mut longer);
    merged.copy_from_slice(&longer[..merged.len()]);
    answer
}

fn tick_of_32_bits(ccd: &[u64], infrared: &[u64], merged: &mut [u64]) -> Merged {
    let cut = |list: &[u64]| -> Vec<u64> { list.iter().map(|&entry| entry << 16 >> 16).collect() };
    Paper::merge(&cut(ccd), &cut(infrared), merged)
}

fn entries_with_sign(ccd: &[u64], infrared: &[u64], merged: &mut [u64]) -> Merged {
    accepted_by(ccd, infrared, merged, |one, other| {
        (one as i64) < (other as i64)
    })
}

fn infrared_unjudged(ccd: &[u64], infrared: &[u64], merged: &mut [u64]) -> Merged {
    match rises(ccd) {
        true => merges_refused(ccd, infrared, merged, NOT_RISING),
        false => Paper::merge(ccd, infrared, merged),
    }
}

fn ccd_unjudged(ccd: &[u64], infrared: &[u64], merged: &mut [u64]) -> Merged {
    match rises(infrared) {
        true => merges_refused(ccd, infrared, merged, NOT_RISING),
        false => Library::merge(ccd, infrared, merged),
    }
}

fn equal_ticks_rise(ccd: &[u64], infrared: &[u64], merged: &mut [u64]) -> Merged {
    let rises = |list: &[u64]| list.windows(2).all(|pair| tick(pair[0]) <= tick(pair[1]));
    match rises(ccd) && rises(infrared) {
        true => merges_refused(ccd, infrared, merged, NOT_RISING),
        false => Paper::merge(ccd, infrared, merged),
    }
}

fn last_tick_unjudged(ccd: &[u64], infrared: &[u64], merged: &mut [u64]) -> Merged {
    let without_last = |list: &[u64]| rises(&list[..list.len().saturating_sub(1)]);
    match without_last(ccd) && without_last(infrared) {
        true => merges_refused(ccd, infrared, merged, NOT_RISING),
        false => Paper::merge(ccd, infrared, merged),
    }
}

fn same_tick_at_same_place(ccd: &[u64], infrared: &[u64], merged: &mut [u64]) -> Merged {
    let mut pairs = ccd.iter().zip(infrared);
    match pairs.any(|(&one, &other)| tick(one) == tick(other)) {
        true => Paper::merge(ccd, infrared, merged),
        false => merges_refused(ccd, infrared, merged, SAME_TICK),
    }
}

fn length_of_16_bits(ccd: &[u64], infrared: &[u64], merged: &mut [u64]) -> Merged {
    let cut = |list: &'_ [u64]| list.len() % 65_536;
    Paper::merge(&ccd[..cut(ccd)], &infrared[..cut(infrared)], merged)
}

fn ticks_alone(ccd: &[u64], infrared: &[u64], merged: &mut [u64]) -> Merged {
    let answer = Paper::merge(ccd, infrared, merged);
    let count = answer.count;
    merged[..count]
        .iter_mut()
        .for_each(|entry| *entry &= !0xFFFF);
    answer
}
