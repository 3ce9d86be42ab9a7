//! Faults in inspections, and in the lists of plans.

use crate::fault::{listed_words, orders, Fault};
use compare::sides::{Paper, Side};
use paper::Inspection;

const INSPECTIONS: &str = "inspections";
const LISTED: &str = "listed plans";

pub const FAULTS: &[Fault] = &[
    Fault {
        name: "an incomplete set is not told at an exposure",
        put: |sides| sides.paper.inspection = leaves_out_incomplete,
        part: INSPECTIONS,
        is_reduced: |text| text.starts_with("words 2000 8000\nticks 0 1\n"),
    },
    Fault {
        name: "a set that is begun anew is not told",
        put: |sides| sides.paper.inspection = leaves_out_begun_anew,
        part: INSPECTIONS,
        is_reduced: |text| text.starts_with("words 2000 2000\nticks 0 1\n"),
    },
    Fault {
        name: "a dropped set is not told",
        put: |sides| sides.paper.inspection = leaves_out_dropped,
        part: INSPECTIONS,
        is_reduced: |text| listed_words(text) == 2 && text.contains("\nticks 0 1\n"),
    },
    Fault {
        name: "a set that is left is not told",
        put: |sides| sides.paper.inspection = leaves_out_left,
        part: INSPECTIONS,
        is_reduced: |text| text.starts_with("words 2000\nticks 0\n"),
    },
    Fault {
        name: "an exposure while the cover moves is no finding",
        put: |sides| sides.paper.inspection = cover_is_no_finding,
        part: INSPECTIONS,
        is_reduced: |text| text.starts_with("words 1001 8000\nticks 0 1\n"),
    },
    Fault {
        name: "an exposure is one finding at most",
        put: |sides| sides.paper.inspection = one_finding_each,
        part: INSPECTIONS,
        // A set that moves the mirror, one that is begun, and START.
        is_reduced: |text| listed_words(text) <= 6,
    },
    Fault {
        name: "a moving cover is told for a moving mirror",
        put: |sides| sides.paper.inspection = cover_as_mirror,
        part: INSPECTIONS,
        is_reduced: |text| text.starts_with("words 1001 8000\nticks 0 1\n"),
    },
    Fault {
        name: "ignored under 22 is always told of a busy head",
        put: |sides| sides.paper.inspection = always_busy,
        part: INSPECTIONS,
        is_reduced: |text| text.starts_with("words 1001 1000\nticks 0 1\n"),
    },
    Fault {
        name: "housekeeping that is stopped is told for an acquisition",
        put: |sides| sides.paper.inspection = stops_acquisition,
        part: INSPECTIONS,
        is_reduced: |text| text.starts_with("words 4000 C000\nticks 0 1\n"),
    },
    Fault {
        name: "the data of one word are told wrong",
        put: |sides| sides.paper.inspection = other_data,
        part: INSPECTIONS,
        is_reduced: |text| text.starts_with("words 13D1\nticks 0\n"),
    },
    Fault {
        name: "lines are counted from 1",
        put: |sides| sides.paper.inspection = counts_from_1,
        part: INSPECTIONS,
        is_reduced: |text| text.starts_with("words 0000\nticks 0\n"),
    },
    Fault {
        name: "the last tick there is is told wrong",
        put: |sides| sides.paper.inspection = other_last_tick,
        part: INSPECTIONS,
        is_reduced: |text| text.starts_with("words 0000\nticks 4294967295\n"),
    },
    Fault {
        name: "a mark is left out",
        put: |sides| sides.paper.inspection = leaves_out_mark,
        part: INSPECTIONS,
        is_reduced: |text| text.starts_with("words 4800\nticks 0\n"),
    },
    Fault {
        name: "equal ticks are taken for rising",
        put: |sides| sides.paper.inspection = equal_ticks_rise,
        part: INSPECTIONS,
        is_reduced: |text| text.starts_with("words 0000 0000\nticks 0 0\n"),
    },
    Fault {
        name: "256 words are refused",
        put: |sides| sides.paper.inspection = refuses_256_words,
        part: INSPECTIONS,
        is_reduced: |text| listed_words(text) == 256 && text.contains("paper number 31,"),
    },
    Fault {
        name: "a length is taken modulo 65,536",
        put: |sides| sides.paper.inspection = length_of_16_bits,
        part: INSPECTIONS,
        is_reduced: |text| text.starts_with("words\nticks 0 1 2 3 and 65532 more\n"),
    },
    Fault {
        name: "a byte past the text is written",
        put: |sides| sides.paper.inspection = writes_past_text,
        part: INSPECTIONS,
        is_reduced: |text| text.starts_with("words\nticks\n") && text.contains("\ntext["),
    },
    Fault {
        name: "a byte is written where there is no room",
        put: |sides| sides.paper.inspection = writes_without_room,
        part: INSPECTIONS,
        is_reduced: |text| {
            text.starts_with("words\nticks\n") && text.contains("text: the places needed -1\n")
        },
    },
    Fault {
        name: "a missing byte is not seen",
        put: |sides| sides.paper.inspection = one_byte_short,
        part: INSPECTIONS,
        is_reduced: |text| {
            text.starts_with("words\nticks\n") && text.contains("text: the places needed -1\n")
        },
    },
    Fault {
        name: "both sides end a line in a space",
        put: |sides| {
            sides.library.inspection = ends_in_space;
            sides.paper.inspection = ends_in_space;
        },
        part: INSPECTIONS,
        is_reduced: |text| listed_words(text) == 1 && text.contains("\nform: |"),
    },
    Fault {
        name: "the findings are not told",
        put: |sides| sides.typed.inspection = no_findings,
        part: "unpacked answers",
        is_reduced: |text| text.starts_with("unpacked, from power-on\n"),
    },
    Fault {
        name: "a listing's end is one too large",
        put: |sides| sides.paper.listing = end_too_large,
        part: LISTED,
        is_reduced: |text| orders(text) == 0 && text.contains("\npaper   |end 1|"),
    },
    Fault {
        name: "the last word of a listing is not read",
        put: |sides| sides.library.read_list = loses_last_word,
        part: LISTED,
        is_reduced: |text| {
            orders(text) == 1 && text.contains("\nlibrary read otherwise than translated")
        },
    },
    Fault {
        name: "both sides find fault with a motion of the mirror",
        put: |sides| {
            sides.library.inspection = motion_is_a_finding;
            sides.paper.inspection = motion_is_a_finding;
        },
        part: LISTED,
        is_reduced: |text| orders(text) == 1 && text.contains("\nlibrary inspected with findings"),
    },
];

const FINDINGS: u64 = 0xFFFF << 8;

/// The paper's inspection, its text changed.
fn changed(words: &[u16], ticks: &[u32], text: &mut [u8], change: fn(&str) -> String) -> u64 {
    let mut lent = text.to_vec();
    let answer = Paper::inspection(words, ticks, &mut lent);
    if answer as u8 != 0 {
        return answer;
    }
    let length = (answer >> 32) as usize;
    let inspection = change(std::str::from_utf8(&lent[..length]).expect("a text"));
    let fits = inspection.len().min(text.len());
    text[..fits].copy_from_slice(&inspection.as_bytes()[..fits]);
    answer & FINDINGS | (inspection.len() as u64) << 32
}

/// The text without the lines that have this.
fn without(text: &str, what: &str) -> String {
    let lines = text.split_inclusive('\n');
    lines.filter(|line| !line.contains(what)).collect()
}

/// The paper's inspection with other findings, which are made from the numbers
/// of its last line.
fn recounted(
    words: &[u16],
    ticks: &[u32],
    text: &mut [u8],
    count: fn(&str, [u64; 5]) -> u64,
) -> u64 {
    let answer = Paper::inspection(words, ticks, text);
    let Ok(inspected) = paper::inspection(words, ticks) else {
        return answer;
    };
    let last = inspected.text.lines().last().expect("a last line");
    let numbers = last.split(", ").map(|part| {
        let (_, number) = part.rsplit_once(' ').expect("a number");
        number.parse().expect("a number")
    });
    let numbers: Vec<u64> = numbers.collect();
    let numbers = numbers.try_into().expect("five numbers");
    answer & !FINDINGS | count(&inspected.text, numbers) << 8
}

fn leaves_out_incomplete(words: &[u16], ticks: &[u32], text: &mut [u8]) -> u64 {
    changed(words, ticks, text, |text| {
        without(text, "  INCOMPLETE MIRROR SET")
    })
}

fn leaves_out_begun_anew(words: &[u16], ticks: &[u32], text: &mut [u8]) -> u64 {
    changed(words, ticks, text, |text| {
        without(text, "MIRROR SET BEGUN ANEW")
    })
}

fn leaves_out_dropped(words: &[u16], ticks: &[u32], text: &mut [u8]) -> u64 {
    changed(words, ticks, text, |text| {
        without(text, "MIRROR SET DROPPED")
    })
}

fn leaves_out_left(words: &[u16], ticks: &[u32], text: &mut [u8]) -> u64 {
    changed(words, ticks, text, |text| without(text, "MIRROR SET LEFT"))
}

fn cover_is_no_finding(words: &[u16], ticks: &[u32], text: &mut [u8]) -> u64 {
    recounted(
        words,
        ticks,
        text,
        |text, [_, ignored, _, incomplete, _]| {
            ignored + incomplete + text.matches("THE MIRROR MOVES").count() as u64
        },
    )
}

fn one_finding_each(words: &[u16], ticks: &[u32], text: &mut [u8]) -> u64 {
    recounted(
        words,
        ticks,
        text,
        |_, [_, ignored, exposures, incomplete, moving]| {
            ignored + exposures.min(incomplete + moving)
        },
    )
}

fn motion_is_a_finding(words: &[u16], ticks: &[u32], text: &mut [u8]) -> u64 {
    recounted(words, ticks, text, |text, [_, ignored, ..]| {
        ignored + text.matches("; it moves for ").count() as u64
    })
}

fn cover_as_mirror(words: &[u16], ticks: &[u32], text: &mut [u8]) -> u64 {
    changed(words, ticks, text, |text| {
        text.replace("THE COVER MOVES", "THE MIRROR MOVES")
    })
}

fn always_busy(words: &[u16], ticks: &[u32], text: &mut [u8]) -> u64 {
    changed(words, ticks, text, |text| {
        let lines = text.split_inclusive('\n');
        let busy = |line: &str| match line.strip_suffix("takes no COVER\n") {
            Some(line) => line.replace("cover moves", "head is busy") + "takes only STOP\n",
            None => line.into(),
        };
        lines.map(busy).collect()
    })
}

fn stops_acquisition(words: &[u16], ticks: &[u32], text: &mut [u8]) -> u64 {
    changed(words, ticks, text, |text| {
        text.replace("housekeeping ends", "the acquisition ends")
    })
}

fn other_data(words: &[u16], ticks: &[u32], text: &mut [u8]) -> u64 {
    changed(words, ticks, text, |text| {
        text.replace(
            "open, one wave, sensors enabled, 81 steps",
            "open, one wave, sensors enabled, 80 steps",
        )
    })
}

/// The lines of words begin with a number of four columns.
fn counts_from_1(words: &[u16], ticks: &[u32], text: &mut [u8]) -> u64 {
    changed(words, ticks, text, |text| {
        let recounted = |line: &str| match line.get(..4).map(|index| index.trim().parse::<u32>()) {
            Some(Ok(index)) => format!("{:>4}{}", index - 1, &line[4..]),
            _ => line.into(),
        };
        text.split_inclusive('\n').map(recounted).collect()
    })
}

fn other_last_tick(words: &[u16], ticks: &[u32], text: &mut [u8]) -> u64 {
    changed(words, ticks, text, |text| {
        text.replace("  4294967295  ", "  4294967294  ")
    })
}

fn leaves_out_mark(words: &[u16], ticks: &[u32], text: &mut [u8]) -> u64 {
    changed(words, ticks, text, |text| {
        text.replace("limit *", "limit  ")
    })
}

/// Each tick that equals the one before it is left out, and its word.
fn equal_ticks_rise(words: &[u16], ticks: &[u32], text: &mut [u8]) -> u64 {
    if words.len() != ticks.len() {
        return Paper::inspection(words, ticks, text);
    }
    let mut timed: Vec<(u32, u16)> = ticks.iter().copied().zip(words.iter().copied()).collect();
    timed.dedup_by_key(|(tick, _)| *tick);
    let (ticks, words): (Vec<u32>, Vec<u16>) = timed.into_iter().unzip();
    Paper::inspection(&words, &ticks, text)
}

fn refuses_256_words(words: &[u16], ticks: &[u32], text: &mut [u8]) -> u64 {
    match words.len() {
        256 => 31,
        _ => Paper::inspection(words, ticks, text),
    }
}

fn length_of_16_bits(words: &[u16], ticks: &[u32], text: &mut [u8]) -> u64 {
    let words = &words[..words.len() % 65_536];
    let ticks = &ticks[..ticks.len() % 65_536];
    Paper::inspection(words, ticks, text)
}

fn writes_past_text(words: &[u16], ticks: &[u32], text: &mut [u8]) -> u64 {
    let answer = Paper::inspection(words, ticks, text);
    let length = (answer >> 32) as usize;
    if answer as u8 == 0 && length < text.len() {
        text[length] = 0;
    }
    answer
}

fn writes_without_room(words: &[u16], ticks: &[u32], text: &mut [u8]) -> u64 {
    let answer = Paper::inspection(words, ticks, text);
    if let (10, Some(first)) = (answer as u8, text.first_mut()) {
        *first = b'l';
    }
    answer
}

fn one_byte_short(words: &[u16], ticks: &[u32], text: &mut [u8]) -> u64 {
    let mut longer = [&*text, &[0]].concat();
    let answer = Paper::inspection(words, ticks, &mut longer);
    text.copy_from_slice(&longer[..text.len()]);
    answer
}

fn ends_in_space(words: &[u16], ticks: &[u32], text: &mut [u8]) -> u64 {
    changed(words, ticks, text, |text| {
        text.replace("no operation\n", "no operation \n")
    })
}

fn no_findings(words: &[u16], ticks: &[u32]) -> Result<Inspection, u16> {
    let inspected = paper::inspection(words, ticks)?;
    let findings = 0;
    Ok(Inspection {
        findings,
        ..inspected
    })
}

fn end_too_large(state: &[u16], plan: &[u8], text: &mut [u8]) -> u64 {
    let mut lent = text.to_vec();
    let answer = Paper::listing(state, plan, &mut lent);
    if answer as u8 != 0 {
        return answer;
    }
    let listing = String::from_utf8_lossy(&lent[..(answer >> 32) as usize]);
    let (before, end) = listing.rsplit_once("end ").expect("an end");
    let end: u32 = end.trim_end().parse().expect("a tick");
    let listing = format!("{before}end {}\n", end + 1);
    let fits = listing.len().min(text.len());
    text[..fits].copy_from_slice(&listing.as_bytes()[..fits]);
    (listing.len() as u64) << 32
}

fn loses_last_word(text: &[u8], words: &mut [u16], ticks: &mut [u32]) -> u64 {
    let answer = Paper::read_list(text, words, ticks);
    match (answer as u8, answer >> 32) {
        (0, count @ 1..) => (count - 1) << 32,
        _ => answer,
    }
}
