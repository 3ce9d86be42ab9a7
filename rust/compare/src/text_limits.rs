//! Texts of lists at the limits: of ticks, words, bytes and lines.

use crate::random::Random;
use crate::reduce::Counted;
use crate::room::Room;
use crate::text_case::{Reader, TextCase};
use shabgozim::{MOST_LIST_BYTES, MOST_WORDS};

/// The listing of document 01's example.
const EXAMPLE: &str = "tick word\n0 2011\n1 A000\n2 600F\n3 E0F8\n69 8000\n227 4000\nend 230\n";

pub fn texts(reader: &mut Reader, random: &mut Random) -> Counted {
    let mut count = every_byte(reader)?;
    count += ticks(reader)?;
    count += titles(reader)?;
    count += word_counts(reader)?;
    count += byte_counts(reader, random)?;
    count += rooms(reader)?;
    Ok(count)
}

/// Each place of the example with every byte, without its byte, and with every
/// byte before it.
fn every_byte(reader: &mut Reader) -> Counted {
    let example = EXAMPLE.as_bytes();
    let mut count = 0;
    for at in 0..example.len() {
        let (before, after) = (&example[..at], &example[at + 1..]);
        count += reader.compare_text([before, after].concat())?;
        count += reader.compare_text(before.to_vec())?;
        for byte in 0..=u8::MAX {
            count += reader.compare_text([before, &[byte], after].concat())?;
            count += reader.compare_text([before, &[byte], &example[at..]].concat())?;
        }
    }
    Ok(count)
}

/// Numbers of every length, the least and the greatest of each, those about
/// 2^32, and numbers with zeros or signs before them.
fn numbers() -> Vec<String> {
    let mut numbers: Vec<String> = Vec::new();
    for digits in 0..21 {
        let least = 10_u128.pow(digits);
        numbers.extend([least - 1, least, least + 1].map(|number| number.to_string()));
    }
    for about in [1_u128 << 31, 1 << 32, 2 << 32, 1 << 63, 1 << 64] {
        numbers.extend([about - 1, about, about + 1].map(|number| number.to_string()));
    }
    numbers.extend(["5294967295", "4394967295", "4294967300", "4294967195"].map(String::from));
    let with_zeros: Vec<String> = numbers.iter().map(|number| format!("0{number}")).collect();
    numbers.extend(with_zeros);
    numbers.extend(["", "+1", "-1", "1_0", "1e3", "0x1", "00000000000"].map(String::from));
    numbers
}

/// Every number as a tick and as the end, and every two of them in turn.
fn ticks(reader: &mut Reader) -> Counted {
    let numbers = numbers();
    let mut count = 0;
    for first in &numbers {
        count += reader.compare_text(format!("tick word\n{first} 4000\n").into())?;
        count += reader.compare_text(format!("tick word\nend {first}\n").into())?;
        for second in &numbers {
            let words = format!("tick word\n{first} 4000\n{second} C000\n");
            count += reader.compare_text(words.into())?;
            let end = format!("tick word\n{first} 4000\nend {second}");
            count += reader.compare_text(end.into())?;
        }
    }
    Ok(count)
}

/// Parts of the title, and more than it.
fn titles(reader: &mut Reader) -> Counted {
    const TITLE: &str = "tick word";
    let mut count = 0;
    for length in 0..=TITLE.len() {
        for end in ["", "\n", "\n\n", "\nend 0", "\r\n", " \n", "0 4000\n"] {
            count += reader.compare_text(format!("{}{end}", &TITLE[..length]).into())?;
            count += reader.compare_text(format!("\n{}{end}", &TITLE[..length]).into())?;
        }
    }
    Ok(count)
}

/// The title and so many words at neighbouring ticks.
fn words(count: usize) -> String {
    let lines = (0..count).map(|tick| format!("{tick} {:04X}\n", tick * 257 % 65_536));
    "tick word\n".to_owned() + &lines.collect::<String>()
}

/// As many words as may be, fewer and more, before every sort of line.
fn word_counts(reader: &mut Reader) -> Counted {
    let mut count = 0;
    for length in [0, 1, 2, 3, 254, 255, 256, 257, 258, 300, 512, 513] {
        let text = words(length);
        for tick in [0, length.saturating_sub(1), length, length + 1] {
            for last in [
                String::new(),
                format!("end {tick}"),
                format!("end {tick}\n"),
                format!("end {tick}\n\n"),
                format!("end {tick}\n{tick} 4000\n"),
                format!("end {tick}\nend {tick}\n"),
                format!("end {tick}\nx"),
                format!("{tick} 4000\n"),
                format!("{tick} 4000"),
                format!("{tick} 400\n"),
                String::from("\n"),
            ] {
                count += reader.compare_text((text.clone() + &last).into())?;
            }
        }
    }
    Ok(count)
}

/// Texts filled up to about the most bytes, to twice as many, and to as many as
/// two bytes take for less.
fn byte_counts(reader: &mut Reader, random: &mut Random) -> Counted {
    let mut lengths: Vec<usize> = (MOST_LIST_BYTES - 4..MOST_LIST_BYTES + 5).collect();
    lengths.extend([2 * MOST_LIST_BYTES, 65_535, 65_536, 65_537]);
    lengths.extend([65_536 + EXAMPLE.len(), 131_072 + EXAMPLE.len()]);
    let mut count = 0;
    for begin in ["", "tick word\n", EXAMPLE, &words(MOST_WORDS)] {
        for fill in *b"\n x0\0" {
            for &length in &lengths {
                let mut text = begin.as_bytes().to_vec();
                text.resize(length, fill);
                count += reader.compare_text(text.clone())?;
                // A newline near the byte by which it is too long.
                for at in MOST_LIST_BYTES - 2..MOST_LIST_BYTES + 2 {
                    if let Some(byte) = text.get_mut(at) {
                        *byte = b'\n';
                        count += reader.compare_text(text.clone())?;
                        text[at] = fill;
                    }
                }
                for _ in 0..random.below(40) {
                    text[random.below(length)] = b'\n';
                }
                count += reader.compare_text(text)?;
            }
        }
    }
    Ok(count)
}

/// Just enough places for words and for ticks, fewer and more.
fn rooms(reader: &mut Reader) -> Counted {
    let texts = [
        String::from(EXAMPLE),
        words(0),
        words(1),
        words(MOST_WORDS),
        words(MOST_WORDS + 1),
        String::from("tick word\n5 4000\n5 8000\n"),
    ];
    let mut count = 0;
    for text in texts {
        for words in -3..=3 {
            for ticks in -3..=3 {
                let mut case = TextCase::new(text.clone().into());
                case.words = Room::Beside(words);
                case.ticks = Room::Beside(ticks);
                count += reader.compare(&case)?;
            }
        }
    }
    Ok(count)
}
