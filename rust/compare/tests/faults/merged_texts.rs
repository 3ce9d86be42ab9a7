//! Faults in lists merged as text.

use crate::fault::Fault;
use compare::sides::{Library, Paper, Side};
use shabgozim::MERGED_TEXT_LENGTH;

const TEXTS: &str = "merged texts";

const SAME_TICK: u8 = 53;
const TOO_SHORT: u8 = 10;
const TITLE: &str = r#""tick word""#;
const ONE_WORD: &str = r#""tick word\n0 0000""#;

pub const FAULTS: &[Fault] = &[
    Fault {
        name: "a merged text has an end",
        put: |sides| sides.paper.merge_texts = with_end,
        part: TEXTS,
        is_reduced: |text| has_texts(text, TITLE, TITLE) && text.contains("|end 0|"),
    },
    Fault {
        name: "the lines of the rest are left out",
        put: |sides| sides.paper.merge_texts = without_rest,
        part: TEXTS,
        is_reduced: |text| has_texts(text, ONE_WORD, TITLE) || has_texts(text, TITLE, ONE_WORD),
    },
    Fault {
        name: "a refusal is told of the other text",
        put: |sides| sides.library.merge_texts = refuses_the_other,
        part: TEXTS,
        is_reduced: |text| {
            has_texts(text, r#""""#, r#""""#) && text.contains(" library number 91, bits 8-31 1, ")
        },
    },
    Fault {
        name: "the infrared text is read first",
        put: |sides| sides.paper.merge_texts = infrared_first,
        part: TEXTS,
        is_reduced: |text| has_texts(text, r#""""#, r#""""#) && text.contains("bits 8-31 1, "),
    },
    Fault {
        name: "only the first text is judged",
        put: |sides| sides.paper.merge_texts = infrared_unjudged,
        part: TEXTS,
        is_reduced: |text| has_texts(text, TITLE, r#""""#),
    },
    Fault {
        name: "the line of a refusal is left out",
        put: |sides| sides.library.merge_texts = without_line,
        part: TEXTS,
        is_reduced: |text| text.contains("length or line 0, paper ") && is_short(text, 1),
    },
    Fault {
        name: "the same tick is told with its line",
        put: |sides| sides.paper.merge_texts = same_tick_with_line,
        part: TEXTS,
        is_reduced: |text| has_texts(text, ONE_WORD, ONE_WORD),
    },
    Fault {
        name: "the same tick is told of the infrared text",
        put: |sides| sides.paper.merge_texts = same_tick_of_infrared,
        part: TEXTS,
        is_reduced: |text| has_texts(text, ONE_WORD, ONE_WORD),
    },
    Fault {
        name: "the same tick is told as a list that does not rise",
        put: |sides| sides.library.merge_texts = same_tick_as_93,
        part: TEXTS,
        is_reduced: |text| {
            has_texts(text, ONE_WORD, ONE_WORD) && text.contains(" library number 93,")
        },
    },
    Fault {
        name: "the same tick is kept in both lines",
        put: |sides| sides.paper.merge_texts = keeps_same_tick,
        part: TEXTS,
        is_reduced: |text| has_texts(text, ONE_WORD, ONE_WORD) && text.contains("paper number 0,"),
    },
    Fault {
        name: "room is judged before the same tick",
        put: |sides| sides.paper.merge_texts = room_before_same_tick,
        part: TEXTS,
        is_reduced: |text| has_texts(text, ONE_WORD, ONE_WORD) && text.contains("paper number 10,"),
    },
    Fault {
        name: "room is judged before the texts",
        put: |sides| sides.paper.merge_texts = room_before_texts,
        part: TEXTS,
        is_reduced: |text| has_texts(text, r#""""#, r#""""#) && text.contains("paper number 10,"),
    },
    Fault {
        name: "the length is left out where there is no room",
        put: |sides| sides.library.merge_texts = without_length,
        part: TEXTS,
        is_reduced: |text| {
            has_texts(text, TITLE, TITLE) && text.contains("\ntext: the places needed -1\n")
        },
    },
    Fault {
        name: "a text is begun where there is no room for it",
        put: |sides| sides.paper.merge_texts = begins_without_room,
        part: TEXTS,
        is_reduced: |text| {
            has_texts(text, TITLE, TITLE) && text.ends_with("\ntext[0]: library 0xBB, paper 0x74")
        },
    },
    Fault {
        name: "just enough room is taken for too little",
        put: |sides| sides.paper.merge_texts = refuses_just_enough,
        part: TEXTS,
        is_reduced: |text| {
            has_texts(text, TITLE, TITLE) && text.contains("\ntext: the places needed +0\n")
        },
    },
    Fault {
        name: "room without the last newline is taken for enough",
        put: |sides| sides.library.merge_texts = leaves_newline_out,
        part: TEXTS,
        is_reduced: |text| {
            has_texts(text, TITLE, TITLE) && text.contains("\ntext: the places needed -1\n")
        },
    },
    Fault {
        name: "a byte past the text is written",
        put: |sides| sides.paper.merge_texts = writes_past_text,
        part: TEXTS,
        is_reduced: |text| {
            has_texts(text, TITLE, TITLE) && text.ends_with("\ntext[10]: library 0xBB, paper 0x0")
        },
    },
    Fault {
        name: "a place is written on refusal",
        put: |sides| sides.paper.merge_texts = writes_on_refusal,
        part: TEXTS,
        is_reduced: |text| {
            has_texts(text, r#""""#, r#""""#)
                && text.ends_with("\ntext[0]: library 0xBB, paper 0x74")
        },
    },
    Fault {
        name: "letters are written in lower case",
        put: |sides| sides.paper.merge_texts = lower_case,
        part: TEXTS,
        is_reduced: |text| is_short(text, 2) && text.contains("\nline 2\n"),
    },
    Fault {
        name: "ticks are sorted as text",
        put: |sides| sides.paper.merge_texts = sorted_as_text,
        part: TEXTS,
        is_reduced: |text| is_short(text, 3) && text.contains("\nline 2\n"),
    },
    Fault {
        name: "the infrared words come after the CCD words",
        put: |sides| sides.library.merge_texts = one_after_the_other,
        part: TEXTS,
        is_reduced: |text| is_short(text, 2) && text.contains("\nline 2\n"),
    },
    Fault {
        name: "a merged list has 256 words at most",
        put: |sides| sides.paper.merge_texts = of_256_words,
        part: TEXTS,
        is_reduced: |text| text.contains("\nanswer: library number 0,") && lines(text) == 257,
    },
    Fault {
        name: "the last word of 512 is left out",
        put: |sides| sides.paper.merge_texts = of_511_words,
        part: TEXTS,
        is_reduced: |text| text.contains("\nline 513\n") && lines(text) == 512,
    },
];

/// The texts of a case, as they are shown.
fn shown(text: &str) -> [&str; 2] {
    let mut lines = text.lines();
    [(); 2].map(|()| {
        let line = lines.next().unwrap_or("");
        line.split_once(" bytes ").expect("a text").1
    })
}

fn has_texts(text: &str, ccd: &str, infrared: &str) -> bool {
    shown(text) == [ccd, infrared]
}

/// How many lines with words both texts of a case have together.
fn lines(text: &str) -> usize {
    let newlines = shown(text).map(|text| text.trim_end_matches("\\n\"").matches("\\n").count());
    newlines.iter().sum()
}

/// Whether the texts have no more lines with words than this.
fn is_short(text: &str, words: usize) -> bool {
    lines(text) <= words
}

/// The number and the upper half of an answer.
fn number_and_length(answer: u64) -> (u8, usize) {
    (answer as u8, (answer >> 32) as usize)
}

/// The paper's merged text with its lines changed, where there is room for every
/// text.
fn changed(
    ccd: &[u8],
    infrared: &[u8],
    text: &mut [u8],
    change: impl Fn(Vec<String>) -> Vec<String>,
) -> u64 {
    let answer = Paper::merge_texts(ccd, infrared, text);
    let (number, length) = number_and_length(answer);
    if number != 0 || text.len() < MERGED_TEXT_LENGTH {
        return answer;
    }
    let merged = String::from_utf8_lossy(&text[..length]).into_owned();
    let lines = change(merged.split_inclusive('\n').map(String::from).collect());
    let merged = lines.concat();
    text[..merged.len()].copy_from_slice(merged.as_bytes());
    (merged.len() as u64) << 32
}

/// How many words a text has; 0 where it is refused.
fn words(text: &[u8]) -> usize {
    paper::read_list(text).map_or(0, |list| list.words.len())
}

/// The last tick of a text.
fn last_tick(text: &[u8]) -> Option<u32> {
    paper::read_list(text).ok()?.ticks.last().copied()
}

fn tick_of(line: &str) -> Option<u32> {
    line.split_once(' ')?.0.parse().ok()
}

fn with_end(ccd: &[u8], infrared: &[u8], text: &mut [u8]) -> u64 {
    changed(ccd, infrared, text, |mut lines| {
        let last = lines.last().and_then(|line| tick_of(line));
        lines.push(format!(
            "end {}\n",
            last.map_or(0, |last| u64::from(last) + 1)
        ));
        lines
    })
}

fn without_rest(ccd: &[u8], infrared: &[u8], text: &mut [u8]) -> u64 {
    let end = last_tick(ccd).min(last_tick(infrared));
    changed(ccd, infrared, text, |mut lines| {
        lines.retain(|line| tick_of(line).is_none_or(|tick| Some(tick) <= end));
        lines
    })
}

fn refuses_the_other(ccd: &[u8], infrared: &[u8], text: &mut [u8]) -> u64 {
    let answer = Library::merge_texts(ccd, infrared, text);
    match answer as u8 {
        91..=96 => answer ^ 1 << 8,
        _ => answer,
    }
}

fn infrared_first(ccd: &[u8], infrared: &[u8], text: &mut [u8]) -> u64 {
    let answer = Paper::merge_texts(infrared, ccd, text);
    match answer as u8 {
        91..=96 => answer ^ 1 << 8,
        _ => answer,
    }
}

fn infrared_unjudged(ccd: &[u8], infrared: &[u8], text: &mut [u8]) -> u64 {
    let infrared = match paper::read_list(infrared) {
        Ok(_) => infrared,
        Err(_) => b"tick word\n",
    };
    Paper::merge_texts(ccd, infrared, text)
}

fn without_line(ccd: &[u8], infrared: &[u8], text: &mut [u8]) -> u64 {
    let answer = Library::merge_texts(ccd, infrared, text);
    match answer as u8 {
        91..=96 => answer & 0xFFFF_FFFF,
        _ => answer,
    }
}

/// With another answer where the same tick is in both.
fn same_tick(ccd: &[u8], infrared: &[u8], text: &mut [u8], other: u64) -> u64 {
    match Paper::merge_texts(ccd, infrared, text) {
        answer if answer as u8 == SAME_TICK => other,
        answer => answer,
    }
}

fn same_tick_with_line(ccd: &[u8], infrared: &[u8], text: &mut [u8]) -> u64 {
    same_tick(ccd, infrared, text, u64::from(SAME_TICK) | 2 << 32)
}

fn same_tick_of_infrared(ccd: &[u8], infrared: &[u8], text: &mut [u8]) -> u64 {
    same_tick(ccd, infrared, text, u64::from(SAME_TICK) | 1 << 8)
}

fn same_tick_as_93(ccd: &[u8], infrared: &[u8], text: &mut [u8]) -> u64 {
    same_tick(ccd, infrared, text, 93 | 1 << 8 | 2 << 32)
}

fn keeps_same_tick(ccd: &[u8], infrared: &[u8], text: &mut [u8]) -> u64 {
    same_tick(ccd, infrared, text, 24 << 32)
}

fn room_before_same_tick(ccd: &[u8], infrared: &[u8], text: &mut [u8]) -> u64 {
    match text.is_empty() {
        true => same_tick(ccd, infrared, text, TOO_SHORT.into()),
        false => Paper::merge_texts(ccd, infrared, text),
    }
}

fn room_before_texts(ccd: &[u8], infrared: &[u8], text: &mut [u8]) -> u64 {
    match Paper::merge_texts(ccd, infrared, text) {
        answer if matches!(answer as u8, 91..=96) && text.is_empty() => TOO_SHORT.into(),
        answer => answer,
    }
}

fn without_length(ccd: &[u8], infrared: &[u8], text: &mut [u8]) -> u64 {
    match Library::merge_texts(ccd, infrared, text) {
        answer if answer as u8 == TOO_SHORT => TOO_SHORT.into(),
        answer => answer,
    }
}

/// Writes the first byte after an answer with one of these numbers.
fn begins(ccd: &[u8], infrared: &[u8], text: &mut [u8], numbers: &[u8]) -> u64 {
    let answer = Paper::merge_texts(ccd, infrared, text);
    if let (true, Some(first)) = (numbers.contains(&(answer as u8)), text.first_mut()) {
        *first = b't';
    }
    answer
}

fn begins_without_room(ccd: &[u8], infrared: &[u8], text: &mut [u8]) -> u64 {
    begins(ccd, infrared, text, &[TOO_SHORT])
}

fn writes_on_refusal(ccd: &[u8], infrared: &[u8], text: &mut [u8]) -> u64 {
    begins(ccd, infrared, text, &[91, 92, 93, 94, 95, 96])
}

fn refuses_just_enough(ccd: &[u8], infrared: &[u8], text: &mut [u8]) -> u64 {
    match text {
        [places @ .., _] => Paper::merge_texts(ccd, infrared, places),
        [] => Paper::merge_texts(ccd, infrared, text),
    }
}

fn leaves_newline_out(ccd: &[u8], infrared: &[u8], text: &mut [u8]) -> u64 {
    let mut longer = [&text[..], &[0]].concat();
    let answer = Library::merge_texts(ccd, infrared, &mut longer);
    text.copy_from_slice(&longer[..text.len()]);
    answer
}

fn writes_past_text(ccd: &[u8], infrared: &[u8], text: &mut [u8]) -> u64 {
    let answer = Paper::merge_texts(ccd, infrared, text);
    if let (0, length) = number_and_length(answer) {
        text.get_mut(length).into_iter().for_each(|next| *next = 0);
    }
    answer
}

fn lower_case(ccd: &[u8], infrared: &[u8], text: &mut [u8]) -> u64 {
    changed(ccd, infrared, text, |lines| {
        lines.iter().map(|line| line.to_lowercase()).collect()
    })
}

fn sorted_as_text(ccd: &[u8], infrared: &[u8], text: &mut [u8]) -> u64 {
    changed(ccd, infrared, text, |mut lines| {
        lines[1..].sort_by(|one, other| one.split(' ').next().cmp(&other.split(' ').next()));
        lines
    })
}

fn one_after_the_other(ccd: &[u8], infrared: &[u8], text: &mut [u8]) -> u64 {
    let list = paper::read_list(ccd).unwrap_or_default();
    let is_ccd = |line: &String| tick_of(line).is_none_or(|tick| list.ticks.contains(&tick));
    changed(ccd, infrared, text, |lines| {
        let (first, last): (Vec<String>, Vec<String>) = lines.into_iter().partition(is_ccd);
        [first, last].concat()
    })
}

fn of_256_words(ccd: &[u8], infrared: &[u8], text: &mut [u8]) -> u64 {
    match (
        paper::merge_texts(ccd, infrared),
        words(ccd) + words(infrared),
    ) {
        (Ok(_), 257..) => 94 | 258 << 32,
        _ => Paper::merge_texts(ccd, infrared, text),
    }
}

fn of_511_words(ccd: &[u8], infrared: &[u8], text: &mut [u8]) -> u64 {
    changed(ccd, infrared, text, |mut lines| {
        lines.truncate(512);
        lines
    })
}
