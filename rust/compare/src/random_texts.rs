//! Lists written as text in every way that is read, and damaged texts.

use crate::random::Random;

const TITLE: &str = "tick word\n";
/// Bytes that a list may have, or nearly.
const LIKELY: &[u8] = b"0123456789abcdefABCDEFG/:@`ned \n\r\t-+x\0";

/// A list as text. Letters are of either case; the end or the last newline may
/// be missing. Ticks need not rise.
pub fn text(random: &mut Random, words: &[u16], ticks: &[u32]) -> Vec<u8> {
    let mut text = String::from(TITLE);
    let sort = random.below(4);
    for (word, tick) in words.iter().zip(ticks) {
        text += &match (sort, random.below(2)) {
            (0, _) | (1, 0) => format!("{tick} {word:04x}\n"),
            _ => format!("{tick} {word:04X}\n"),
        };
    }
    if !random.once_in(3) {
        let end = end(random, ticks.last().copied());
        text += &format!("end {end}\n");
    }
    if random.once_in(4) {
        text.pop();
    }
    text.into_bytes()
}

/// Mostly above the last tick.
fn end(random: &mut Random, last: Option<u32>) -> u32 {
    let after = last.map_or(0, |last| last.saturating_add(1));
    match random.below(8) {
        0 => last.unwrap_or(0),
        1 => random.bits() as u32 >> random.below(32),
        2 => u32::MAX,
        _ => after.saturating_add(random.below(300) as u32),
    }
}

type Damage = fn(&mut Random, &mut Vec<u8>);

const DAMAGES: [Damage; 8] = [
    |random, text| byte_changed(random, text),
    byte_removed,
    byte_inserted,
    lines_exchanged,
    line_doubled,
    line_removed,
    cut_off,
    line_added,
];

/// Changes a text in one way.
pub fn damage(random: &mut Random, text: &mut Vec<u8>) {
    if !text.is_empty() {
        random.pick(&DAMAGES)(random, text);
    }
}

fn any_byte(random: &mut Random) -> u8 {
    match random.below(4) {
        0 => random.byte(),
        _ => *random.pick(LIKELY),
    }
}

fn byte_changed(random: &mut Random, text: &mut [u8]) {
    let at = random.below(text.len());
    text[at] = any_byte(random);
}

fn byte_removed(random: &mut Random, text: &mut Vec<u8>) {
    text.remove(random.below(text.len()));
}

fn byte_inserted(random: &mut Random, text: &mut Vec<u8>) {
    let at = random.below(text.len() + 1);
    text.insert(at, any_byte(random));
}

fn cut_off(random: &mut Random, text: &mut Vec<u8>) {
    text.truncate(random.below(text.len()));
}

/// Changes the lines, each with its newline.
fn with_lines(text: &mut Vec<u8>, change: impl FnOnce(&mut Vec<Vec<u8>>)) {
    let lines = text.split_inclusive(|&byte| byte == b'\n');
    let mut lines: Vec<Vec<u8>> = lines.map(<[u8]>::to_vec).collect();
    change(&mut lines);
    *text = lines.concat();
}

fn lines_exchanged(random: &mut Random, text: &mut Vec<u8>) {
    with_lines(text, |lines| {
        let (one, other) = (random.below(lines.len()), random.below(lines.len()));
        lines.swap(one, other);
    });
}

fn line_doubled(random: &mut Random, text: &mut Vec<u8>) {
    with_lines(text, |lines| {
        let at = random.below(lines.len());
        lines.insert(at, lines[at].clone());
    });
}

fn line_removed(random: &mut Random, text: &mut Vec<u8>) {
    with_lines(text, |lines| {
        lines.remove(random.below(lines.len()));
    });
}

fn line_added(random: &mut Random, text: &mut Vec<u8>) {
    const LINES: [&[u8]; 6] = [
        b"\n",
        b"end 0\n",
        b"end 4294967295\n",
        b"4294967295 C000\n",
        b"0 c000\n",
        b"tick word\n",
    ];
    with_lines(text, |lines| {
        let at = random.below(lines.len() + 1);
        lines.insert(at, random.pick(&LINES).to_vec());
    });
}

#[cfg(test)]
mod tests {
    use super::*;
    use crate::random_lists::RandomLists;
    use crate::states;
    use std::collections::BTreeMap;

    /// How often texts are read, and refused with each number.
    fn numbers(damages: usize) -> BTreeMap<u16, usize> {
        let mut random = Random::new(1);
        let lists = RandomLists::new();
        let mut counts = BTreeMap::new();
        for _ in 0..3000 {
            let list = lists.any_from(&mut random, &states::power_on());
            let mut text = text(&mut random, &list.words, &list.ticks);
            for _ in 0..damages {
                damage(&mut random, &mut text);
            }
            let number = paper::read_list(&text).map_or_else(|refusal| refusal.number, |_| 0);
            *counts.entry(number).or_default() += 1;
        }
        counts
    }

    #[test]
    fn most_texts_are_read() {
        let counts = numbers(0);
        assert!(counts[&0] > 1500, "{counts:?}");
        assert!(counts[&94] > 20, "{counts:?}");
    }

    #[test]
    fn damaged_texts_are_refused_for_every_reason() {
        let counts = numbers(1);
        for number in [0, 91, 92, 93, 95] {
            assert!(counts[&number] > 50, "{counts:?}");
        }
    }
}
