//! Lists merged as text: of every sort, at the limits, and damaged.

use super::texts_case::{TextMerger, TextsCase};
use crate::orders;
use crate::random::Random;
use crate::random_lists::{few_ticks, next_tick, RandomLists};
use crate::random_plans::any_or_extreme_orders;
use crate::random_texts::{damage, text};
use crate::reduce::Counted;
use crate::room::Room;
use crate::sides::Sides;
use crate::states;
use paper::{Decoded, Group};
use shabgozim::{MERGED_TEXT_LENGTH, MOST_LIST_BYTES, MOST_WORDS};

/// Words with their ticks.
type Timed = Vec<(u32, u16)>;

/// Texts with each refusal, and two that are lists.
const TEXTS: [&str; 10] = [
    "tick word\n",
    "tick word\n3 2864\n7 9832\nend 8\n",
    "",
    "tick  word\n",
    "tick word\n1 286\n",
    "tick word\n1 2864\n4294967296 2864\n",
    "tick word\n4 2864\n4 9832\n",
    "tick word\n1 2864\n2 9832\nend 2\n",
    "tick word\n1 2864\nend 5\n\n",
    "tick word\nend 5\n6 2864\n",
];

/// Texts at the limits, every two refusals, and random texts, each then damaged.
pub fn texts(sides: &Sides, random: &mut Random, times: u32) -> Counted {
    let mut merger = TextMerger::new(sides);
    let mut count = refused(&mut merger)?;
    count += same_ticks(&mut merger)?;
    count += long_ticks(&mut merger)?;
    let lists = RandomLists::new();
    for _ in 0..times {
        count += full_lists(&mut merger, random, &lists)?;
        for _ in 0..20_000 {
            let texts = pair(random, &lists);
            count += with_damages(&mut merger, random, &texts)?;
        }
    }
    Ok(count)
}

/// Every two of the texts, of those with too many words, and of those with too
/// many bytes.
fn refused(merger: &mut TextMerger) -> Counted {
    let words = |count| listed((0..count).map(|tick| (tick, 0x2864)));
    let mut texts: Vec<Vec<u8>> = TEXTS.iter().map(|text| text.as_bytes().to_vec()).collect();
    texts.extend([words(MOST_WORDS as u32), words(MOST_WORDS as u32 + 1)]);
    texts.extend([MOST_LIST_BYTES, MOST_LIST_BYTES + 1].map(|length| vec![b'\n'; length]));
    let mut count = 0;
    for ccd in &texts {
        for infrared in &texts {
            for room in [Room::Every, Room::Beside(-(MERGED_TEXT_LENGTH as isize))] {
                let texts = [ccd.clone(), infrared.clone()];
                count += merger.compare(&TextsCase { texts, room })?;
            }
        }
    }
    Ok(count)
}

/// A text of these words, with a newline after each line and no end.
fn listed(timed: impl Iterator<Item = (u32, u16)>) -> Vec<u8> {
    let lines = timed.map(|(tick, word)| format!("{tick} {word:04X}\n"));
    let text = "tick word\n".to_owned() + &lines.collect::<String>();
    text.into()
}

/// Lists of a few words with each tick of one in the other.
fn same_ticks(merger: &mut TextMerger) -> Counted {
    let mut count = 0;
    for length in 1..8 {
        for same in 0..length {
            let ccd = listed((0..length).map(|index| (2 * index, 0x2864)));
            let infrared = (0..length).map(|index| (2 * index + u32::from(index != same), 0x08C8));
            let infrared = listed(infrared);
            count += merger.compare_texts([ccd.clone(), infrared.clone()])?;
            count += merger.compare_texts([infrared, ccd])?;
        }
    }
    Ok(count)
}

/// Ticks of every number of digits, and the longest text there can be.
fn long_ticks(merger: &mut TextMerger) -> Counted {
    let mut count = 0;
    for digits in 0..10 {
        let least = 10_u32.pow(digits);
        for [one, other] in [[least, least + 1], [least - 1, least], [least, u32::MAX]] {
            let texts = [one, other].map(|tick| listed([(tick, 0xFFFF)].into_iter()));
            count += merger.compare_texts(texts)?;
        }
    }
    let first = u32::MAX - 2 * MOST_WORDS as u32;
    let words = (1..=MOST_WORDS as u32).map(|index| first + 2 * index);
    let ccd = listed(words.clone().map(|tick| (tick - 1, 0)));
    let infrared = listed(words.map(|tick| (tick, 0xFFFF)));
    for by in [-1, 0, 1] {
        let texts = [ccd.clone(), infrared.clone()];
        let room = Room::Beside(by);
        count += merger.compare(&TextsCase { texts, room })?;
    }
    Ok(count)
}

/// As many words as may be in both, and about as many in one.
fn full_lists(merger: &mut TextMerger, random: &mut Random, lists: &RandomLists) -> Counted {
    let mut count = 0;
    for (ccd_words, infrared_words) in [(256, 256), (256, 0), (0, 256), (257, 256), (256, 257)] {
        let gap = *random.pick(&[next_tick, few_ticks]);
        let words = ccd_words + infrared_words;
        let list = lists.list(random, &states::power_on(), words, gap);
        let timed = list.ticks.into_iter().zip(list.words);
        let (mut ccd, mut infrared) = (Timed::new(), Timed::new());
        for (index, entry) in timed.enumerate() {
            let is_ccd = infrared.len() == infrared_words
                || ccd.len() < ccd_words && (index % 2 == 0 || random.once_in(8));
            match is_ccd {
                true => ccd.push(entry),
                false => infrared.push(entry),
            }
        }
        count += in_rooms(
            merger,
            &[ccd, infrared].map(|list| listed(list.into_iter())),
        )?;
    }
    Ok(count)
}

/// In rooms just enough, one byte less and more, and none.
fn in_rooms(merger: &mut TextMerger, texts: &[Vec<u8>; 2]) -> Counted {
    let none = Room::Beside(-(MERGED_TEXT_LENGTH as isize));
    let beside = [-1, 0, 1].map(Room::Beside);
    let mut count = 0;
    for room in beside.into_iter().chain([none, Room::Every]) {
        let texts = texts.clone();
        count += merger.compare(&TextsCase { texts, room })?;
    }
    Ok(count)
}

/// Texts of two lists of any sort.
fn pair(random: &mut Random, lists: &RandomLists) -> [Vec<u8>; 2] {
    match random.below(8) {
        0 => by_group(random),
        1 => beside_listing(random),
        2 => any_two(random, lists),
        _ => dealt(random, lists),
    }
}

/// Two texts of any sort, some of them damaged.
pub fn any_texts(random: &mut Random, lists: &RandomLists) -> [Vec<u8>; 2] {
    let mut texts = pair(random, lists);
    if random.once_in(2) {
        let of = random.below(2);
        damage(random, &mut texts[of]);
    }
    texts
}

/// The texts in any room, and with one of them or both damaged.
fn with_damages(merger: &mut TextMerger, random: &mut Random, texts: &[Vec<u8>; 2]) -> Counted {
    let room = Room::any(random);
    let texts = texts.clone();
    let case = TextsCase { texts, room };
    let mut count = merger.compare(&case)?;
    for damaged in [&[0][..], &[1], &[0, 1]] {
        let mut case = case.clone();
        for &of in damaged {
            damage(random, &mut case.texts[of]);
        }
        count += merger.compare(&case)?;
    }
    Ok(count)
}

/// A random list, its words dealt to both.
fn dealt(random: &mut Random, lists: &RandomLists) -> [Vec<u8>; 2] {
    let list = lists.any_from(random, &states::power_on());
    let apart = *random.pick(&[2, 2, 5]);
    let mut dealt = [Timed::new(), Timed::new()];
    for entry in list.ticks.into_iter().zip(list.words) {
        dealt[usize::from(random.once_in(apart))].push(entry);
    }
    dealt.map(|timed| written_by(random, timed))
}

/// Two random lists, which often have a tick in common.
fn any_two(random: &mut Random, lists: &RandomLists) -> [Vec<u8>; 2] {
    [(); 2].map(|()| {
        let list = lists.any_from(random, &states::power_on());
        text(random, &list.words, &list.ticks)
    })
}

/// The words of a plan, each in the list of its group, and the controller's in
/// none.
fn by_group(random: &mut Random) -> [Vec<u8>; 2] {
    let plan = orders::plan(&any_or_extreme_orders(random));
    let (mut words, mut ticks) = ([0; MOST_WORDS], [0; MOST_WORDS]);
    let done = paper::translate(&paper::power_on(), &plan, &mut words, &mut ticks);
    let count = done.expect("an accepted plan").count;
    let mut lists = [Timed::new(), Timed::new()];
    for entry in ticks.into_iter().zip(words).take(count) {
        let Decoded::Allowed { kind, .. } = paper::decode(entry.1) else {
            continue;
        };
        match Group::of(kind) {
            Group::Ccd => lists[0].push(entry),
            Group::Infrared => lists[1].push(entry),
            Group::Controller => {}
        }
    }
    lists.map(|timed| written_by(random, timed))
}

/// The listing of a plan, and words at some of the ticks that it leaves free.
fn beside_listing(random: &mut Random) -> [Vec<u8>; 2] {
    let listing = paper::listing(&orders::plan(&any_or_extreme_orders(random)));
    let list = paper::read_list(listing.as_bytes()).expect("a list");
    let gaps = list.ticks.windows(2).filter(|pair| pair[1] - pair[0] > 1);
    let free = gaps.map(|pair| (pair[0] + 1, random.number())).collect();
    let mut texts = [listing.into_bytes(), written_by(random, free)];
    texts.rotate_left(random.below(2));
    texts
}

/// A list as text, in one of the ways in which it may be written.
fn written_by(random: &mut Random, timed: Timed) -> Vec<u8> {
    let (ticks, words): (Vec<u32>, Vec<u16>) = timed.into_iter().unzip();
    text(random, &words, &ticks)
}

#[cfg(test)]
mod tests {
    use super::*;

    /// How many of a sort of pairs are merged to a text with lines.
    fn merged(sort: impl Fn(&mut Random) -> [Vec<u8>; 2]) -> usize {
        let mut random = Random::new(1);
        let is_merged = |[ccd, infrared]: [Vec<u8>; 2]| {
            paper::merge_texts(&ccd, &infrared).is_ok_and(|text| text.len() > 20)
        };
        let pairs = (0..500).map(|_| sort(&mut random));
        pairs.filter(|pair| is_merged(pair.clone())).count()
    }

    #[test]
    fn most_pairs_are_merged() {
        let lists = RandomLists::new();
        assert!(merged(|random| dealt(random, &lists)) > 200);
        assert!(merged(by_group) > 200);
        assert!(merged(beside_listing) > 200);
    }

    #[test]
    fn the_longest_text_fits() {
        let lists = [0, 1].map(|which| {
            let words = (0..MOST_WORDS as u32).map(|index| (u32::MAX - 2 * index - which, 0xFFFF));
            let mut words: Timed = words.collect();
            words.reverse();
            listed(words.into_iter())
        });
        let [ccd, infrared] = lists;
        let merged = paper::merge_texts(&ccd, &infrared).expect("two lists");
        assert_eq!(merged.len(), 10 + 512 * 16);
        assert!(merged.len() <= MERGED_TEXT_LENGTH);
    }
}
