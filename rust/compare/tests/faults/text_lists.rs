//! Faults in lists read from text, and in their refusals in words.

use crate::fault::Fault;
use compare::sides::{Paper, Side};
use paper::{TextList, TextRefusal};

const TEXTS: &str = "text lists";

pub const FAULTS: &[Fault] = &[
    Fault {
        name: "zeros before a tick are taken",
        put: |sides| sides.paper.read_list = takes_leading_zeros,
        part: TEXTS,
        is_reduced: |text| has_text(text, r#""tick word\n00 0000""#),
    },
    Fault {
        name: "lower-case letters are refused",
        put: |sides| sides.paper.read_list = refuses_lower_case,
        part: TEXTS,
        is_reduced: |text| text.starts_with("text of 16 bytes "),
    },
    Fault {
        name: "equal ticks are taken for rising",
        put: |sides| sides.paper.read_list = equal_ticks_rise,
        part: TEXTS,
        is_reduced: |text| has_text(text, r#""tick word\n0 0000\n0 0000""#),
    },
    Fault {
        name: "the end may be the last word's tick",
        put: |sides| sides.paper.read_list = end_at_last_tick,
        part: TEXTS,
        is_reduced: |text| has_text(text, r#""tick word\n0 0000\nend 0""#),
    },
    Fault {
        name: "an end of 0 is refused",
        put: |sides| sides.paper.read_list = refuses_end_0,
        part: TEXTS,
        is_reduced: |text| has_text(text, r#""tick word\nend 0""#),
    },
    Fault {
        name: "a 257th word is refused before its tick is judged",
        put: |sides| sides.paper.read_list = count_before_tick,
        part: TEXTS,
        is_reduced: |text| lines(text) == 258 && text.contains("paper number 94"),
    },
    Fault {
        name: "256 words are refused",
        put: |sides| sides.paper.read_list = refuses_256_words,
        part: TEXTS,
        is_reduced: |text| lines(text) == 257 && text.contains("library number 0,"),
    },
    Fault {
        name: "a line after the end is judged by what it holds",
        put: |sides| sides.paper.read_list = judges_line_after_end,
        part: TEXTS,
        is_reduced: |text| {
            text.starts_with("text of 17 bytes ") && text.contains("paper number 92")
        },
    },
    Fault {
        name: "8,193 bytes are read",
        put: |sides| sides.paper.read_list = reads_8193_bytes,
        part: TEXTS,
        is_reduced: |text| text.starts_with(r#"text of 8193 bytes "0000"#),
    },
    Fault {
        name: "8,192 bytes are too many",
        put: |sides| sides.paper.read_list = refuses_8192_bytes,
        part: TEXTS,
        is_reduced: |text| text.starts_with(r#"text of 8192 bytes "0000"#),
    },
    Fault {
        name: "a length is taken modulo 65,536",
        put: |sides| sides.paper.read_list = length_of_16_bits,
        part: TEXTS,
        is_reduced: |text| text.contains("library number 96, ") && lines(text) <= 2,
    },
    Fault {
        name: "the lines of a text that is too long are all counted",
        put: |sides| sides.paper.read_list = counts_all_lines,
        part: TEXTS,
        is_reduced: |text| text.starts_with(r#"text of 8194 bytes "#),
    },
    Fault {
        name: "a carriage return is taken",
        put: |sides| sides.paper.read_list = takes_carriage_return,
        part: TEXTS,
        is_reduced: |text| has_text(text, r#""tick word\r""#),
    },
    Fault {
        name: "the last line wants its newline",
        put: |sides| sides.paper.read_list = wants_last_newline,
        part: TEXTS,
        is_reduced: |text| has_text(text, r#""tick word""#),
    },
    Fault {
        name: "nothing after the last newline is taken for a line",
        put: |sides| sides.paper.read_list = takes_nothing_for_line,
        part: TEXTS,
        is_reduced: |text| has_text(text, r#""tick word\n""#),
    },
    Fault {
        name: "a tick is taken modulo 2^32",
        put: |sides| sides.paper.read_list = tick_of_32_bits,
        part: TEXTS,
        is_reduced: |text| text.starts_with("text of 25 bytes "),
    },
    Fault {
        name: "a place past the list is written",
        put: |sides| sides.paper.read_list = writes_past_list,
        part: TEXTS,
        is_reduced: |text| has_text(text, r#""tick word""#) && text.contains("\nticks[0]: "),
    },
    Fault {
        name: "a place is written on refusal",
        put: |sides| sides.paper.read_list = writes_on_refusal,
        part: TEXTS,
        is_reduced: |text| has_text(text, r#""""#) && text.contains("\nwords[0]: "),
    },
    Fault {
        name: "room is judged before the text",
        put: |sides| sides.paper.read_list = room_before_text,
        part: TEXTS,
        is_reduced: |text| has_text(text, r#""""#) && text.contains("paper number 10,"),
    },
    Fault {
        name: "a missing place for ticks is not seen",
        put: |sides| sides.paper.read_list = one_tick_short,
        part: TEXTS,
        is_reduced: |text| {
            has_text(text, r#""tick word\n0 0000""#) && text.contains("ticks: the places needed -1")
        },
    },
    Fault {
        name: "lines are counted from 0",
        put: |sides| sides.paper.list_refusal = counts_from_0,
        part: TEXTS,
        is_reduced: |text| text.starts_with("refusal 91 at line 1, "),
    },
    Fault {
        name: "room without the newline is taken for enough",
        put: |sides| sides.paper.list_refusal = leaves_newline_out,
        part: TEXTS,
        is_reduced: |text| text.starts_with("refusal 91 at line 0, text: the places needed -1\n"),
    },
    Fault {
        name: "the line of a refusal is told one too large",
        put: |sides| sides.typed.read_list = tells_next_line,
        part: "unpacked answers",
        is_reduced: |text| text.starts_with("unpacked, from power-on\n"),
    },
];

/// Whether the case has this text.
fn has_text(text: &str, shown: &str) -> bool {
    let line = text.lines().next().unwrap_or("");
    line.ends_with(&format!(" bytes {shown}"))
}

/// How many lines the text of a case has, where its last one has no newline.
fn lines(text: &str) -> usize {
    let line = text.lines().next().unwrap_or("");
    line.trim_end_matches("\\n\"").matches("\\n").count() + 1
}

/// The text with each line changed.
fn each_line(text: &[u8], change: fn(&[u8]) -> Vec<u8>) -> Vec<u8> {
    let lines = text.split(|&byte| byte == b'\n').map(change);
    lines.collect::<Vec<_>>().join(&b'\n')
}

fn split(text: &[u8]) -> Vec<&[u8]> {
    text.split(|&byte| byte == b'\n').collect()
}

fn number_and_line(answer: u64) -> (u64, usize) {
    (answer & 0xFF, (answer >> 32) as usize)
}

fn refused(number: u64, line: usize) -> u64 {
    number | (line as u64) << 32
}

/// What the paper says of a text before anything is written.
fn foretold(text: &[u8]) -> (u64, usize) {
    number_and_line(Paper::read_list(text, &mut [0; 300], &mut [0; 300]))
}

fn takes_leading_zeros(text: &[u8], words: &mut [u16], ticks: &mut [u32]) -> u64 {
    let text = each_line(text, |mut line| {
        while let [b'0', b'0'..=b'9', ..] = line {
            line = &line[1..];
        }
        line.to_vec()
    });
    Paper::read_list(&text, words, ticks)
}

fn refuses_lower_case(text: &[u8], words: &mut [u16], ticks: &mut [u32]) -> u64 {
    let text = each_line(text, |line| {
        let is_title_or_end = line == b"tick word" || line.starts_with(b"end ");
        match !is_title_or_end && line.iter().any(u8::is_ascii_lowercase) {
            true => b"x".to_vec(),
            false => line.to_vec(),
        }
    });
    Paper::read_list(&text, words, ticks)
}

/// The text without its line that is refused with 93, where that line and the
/// one before it begin with the same tick.
fn without_equal_tick(text: &[u8], is_end: bool) -> Option<Vec<u8>> {
    let (93, line) = foretold(text) else {
        return None;
    };
    let mut lines = split(text);
    let (before, line) = (lines[line - 2], lines.remove(line - 1));
    let (tick, _) = std::str::from_utf8(before).ok()?.split_once(' ')?;
    let equal = match is_end {
        true => line == format!("end {tick}").as_bytes(),
        false => line.starts_with(format!("{tick} ").as_bytes()),
    };
    equal.then(|| lines.join(&b'\n'))
}

fn equal_ticks_rise(text: &[u8], words: &mut [u16], ticks: &mut [u32]) -> u64 {
    let without = without_equal_tick(text, false);
    Paper::read_list(without.as_deref().unwrap_or(text), words, ticks)
}

fn end_at_last_tick(text: &[u8], words: &mut [u16], ticks: &mut [u32]) -> u64 {
    let without = without_equal_tick(text, true);
    Paper::read_list(without.as_deref().unwrap_or(text), words, ticks)
}

fn refuses_end_0(text: &[u8], words: &mut [u16], ticks: &mut [u32]) -> u64 {
    match split(text)[..] {
        [b"tick word", b"end 0", ..] => refused(93, 2),
        _ => Paper::read_list(text, words, ticks),
    }
}

fn count_before_tick(text: &[u8], words: &mut [u16], ticks: &mut [u32]) -> u64 {
    let (number, line) = foretold(text);
    let is_word = |line: usize| !split(text)[line - 1].starts_with(b"end ");
    match number == 93 && line == 258 && is_word(line) {
        true => refused(94, line),
        false => Paper::read_list(text, words, ticks),
    }
}

fn refuses_256_words(text: &[u8], words: &mut [u16], ticks: &mut [u32]) -> u64 {
    match foretold(text) {
        (0, 256) => refused(94, 257),
        _ => Paper::read_list(text, words, ticks),
    }
}

fn judges_line_after_end(text: &[u8], words: &mut [u16], ticks: &mut [u32]) -> u64 {
    if let (95, line) = foretold(text) {
        let alone = [b"tick word\n", split(text)[line - 1], b"\n"].concat();
        if let (92, _) = foretold(&alone) {
            return refused(92, line);
        }
    }
    Paper::read_list(text, words, ticks)
}

fn reads_8193_bytes(text: &[u8], words: &mut [u16], ticks: &mut [u32]) -> u64 {
    match text.len() {
        8193 => Paper::read_list(&text[..8192], words, ticks),
        _ => Paper::read_list(text, words, ticks),
    }
}

fn refuses_8192_bytes(text: &[u8], words: &mut [u16], ticks: &mut [u32]) -> u64 {
    match text.len() {
        8192 => refused(96, 1),
        _ => Paper::read_list(text, words, ticks),
    }
}

fn length_of_16_bits(text: &[u8], words: &mut [u16], ticks: &mut [u32]) -> u64 {
    Paper::read_list(&text[..text.len() % 65_536], words, ticks)
}

fn counts_all_lines(text: &[u8], words: &mut [u16], ticks: &mut [u32]) -> u64 {
    match foretold(text) {
        (96, _) => refused(96, text.split_inclusive(|&byte| byte == b'\n').count()),
        _ => Paper::read_list(text, words, ticks),
    }
}

fn takes_carriage_return(text: &[u8], words: &mut [u16], ticks: &mut [u32]) -> u64 {
    let text = each_line(text, |line| {
        line.strip_suffix(b"\r").unwrap_or(line).to_vec()
    });
    Paper::read_list(&text, words, ticks)
}

fn wants_last_newline(text: &[u8], words: &mut [u16], ticks: &mut [u32]) -> u64 {
    match foretold(text) {
        (0, _) if !text.ends_with(b"\n") => refused(92, split(text).len()),
        _ => Paper::read_list(text, words, ticks),
    }
}

fn takes_nothing_for_line(text: &[u8], words: &mut [u16], ticks: &mut [u32]) -> u64 {
    match text.ends_with(b"\n") {
        true => Paper::read_list(&[text, b"\n"].concat(), words, ticks),
        false => Paper::read_list(text, words, ticks),
    }
}

fn tick_of_32_bits(text: &[u8], words: &mut [u16], ticks: &mut [u32]) -> u64 {
    let text = each_line(text, |line| {
        let text = String::from_utf8_lossy(line);
        let parts = text.split_once(' ');
        let tick = parts.and_then(|(tick, _)| tick.parse::<u128>().ok());
        match (tick, parts) {
            (Some(tick @ 0x1_0000_0000..), Some((_, word))) => {
                format!("{} {word}", tick as u32).into()
            }
            _ => line.to_vec(),
        }
    });
    Paper::read_list(&text, words, ticks)
}

fn writes_past_list(text: &[u8], words: &mut [u16], ticks: &mut [u32]) -> u64 {
    let answer = Paper::read_list(text, words, ticks);
    let (number, count) = number_and_line(answer);
    if number == 0 && count < ticks.len() {
        ticks[count] = 0;
    }
    answer
}

fn writes_on_refusal(text: &[u8], words: &mut [u16], ticks: &mut [u32]) -> u64 {
    let answer = Paper::read_list(text, words, ticks);
    if answer as u8 != 0 && !words.is_empty() {
        words[0] = 0;
    }
    answer
}

fn room_before_text(text: &[u8], words: &mut [u16], ticks: &mut [u32]) -> u64 {
    match words.is_empty() {
        true => refused(10, 0),
        false => Paper::read_list(text, words, ticks),
    }
}

fn one_tick_short(text: &[u8], words: &mut [u16], ticks: &mut [u32]) -> u64 {
    let mut longer = [&*ticks, &[0]].concat();
    let answer = Paper::read_list(text, words, &mut longer);
    ticks.copy_from_slice(&longer[..ticks.len()]);
    answer
}

fn counts_from_0(number: u8, line: u32, text: &mut [u8]) -> u32 {
    Paper::list_refusal(number, line.saturating_sub(1), text)
}

fn leaves_newline_out(number: u8, line: u32, text: &mut [u8]) -> u32 {
    let mut longer = [&*text, &[0]].concat();
    let length = Paper::list_refusal(number, line, &mut longer);
    text.copy_from_slice(&longer[..text.len()]);
    length.min(text.len() as u32)
}

fn tells_next_line(text: &[u8]) -> Result<TextList, TextRefusal> {
    paper::read_list(text).map_err(|refusal| TextRefusal {
        line: refusal.line + 1,
        ..refusal
    })
}
