//! The wrapper's unpacked answers about operators and merging against the paper's
//! own types.

use super::merge_case::{entry, MergeCase};
use super::merge_lists::{self, not_rising, same_tick};
use super::merged_texts::any_texts;
use crate::random::Random;
use crate::random_lists::RandomLists;
use crate::reduce::Counted;
use crate::same::same;
use crate::sides::{Sides, Typed};
use crate::states::{self, Numbers};
use crate::unpacked::number_of;
use crate::words::Words;
use paper::merge::CCD_LIST;
use paper::TextsRefusal;
use shabgozim::{place, Group, MergeTextsRefusal, Operator, Passing, Rest, State};

/// What is answered of the lists' rest: whose, and its entries.
type RestOf = (Operator, Vec<u64>);
/// A refusal by number and in words.
type Refused = (u8, String);

/// Every kind, and words, lists and texts of every sort.
pub fn answers(sides: &Sides, random: &mut Random, times: u32) -> Counted {
    let paper = &sides.typed;
    let mut count = 0;
    for kind in 0..=u8::MAX {
        count += group(paper, kind)?;
    }
    let words = Words::new();
    for _ in 0..100_000 * times {
        let state = states::any(random);
        let word = words.likely(random, state[place::SET_WORDS]);
        for operator in [Operator::Ccd, Operator::Infrared] {
            count += passing(paper, &state, operator, word)?;
        }
        count += entries(random.bits() >> random.below(64), word)?;
    }
    for _ in 0..20_000 * times {
        count += merged(paper, &any_lists(random))?;
    }
    let lists = RandomLists::new();
    for _ in 0..4_000 * times {
        count += merged_texts(paper, &any_texts(random, &lists))?;
    }
    Ok(count)
}

fn group(paper: &Typed, kind: u8) -> Counted {
    let found = Group::of_kind(kind).map(|group| group as u8);
    let expected = match (paper.group)(kind) {
        group @ 0..=2 => Some(group),
        _ => None,
    };
    same(format_args!("group of kind {kind}"), found, expected)
}

/// An operator's word, what becomes of the state, and the refusal.
fn passing(paper: &Typed, state: &Numbers, operator: Operator, word: u16) -> Counted {
    let mut head = State { numbers: *state };
    let passing = head.pass_on(operator, word);
    let outcome = match passing {
        Passing::Passed(outcome) => number_of(outcome),
        refused => u16::from(refused.number()),
    };
    let refused = (passing.is_passed(), passing.number(), passing.in_words());
    let mut expected_head = paper::State::from_array(state);
    let expected = (paper.pass_on)(&mut expected_head, operator as u8, word);
    let expected_refusal = match expected {
        21 | 51 => (false, expected as u8, line(paper, expected as u8)),
        _ => (true, 0, String::new()),
    };
    let what = || {
        let state = states::describe(state);
        format!("word {word:04X} by {operator:?} from {state}")
    };
    let found = (outcome, refused, head.numbers);
    let expected = (expected, expected_refusal, expected_head.to_array());
    match found == expected {
        true => Ok(1),
        false => same(what(), found, expected),
    }
}

/// The line of a refusal, without its newline.
fn line(paper: &Typed, number: u8) -> String {
    let line = (paper.operator_refusal)(number).unwrap_or_default();
    String::from_utf8_lossy(&line).trim_end().into()
}

/// The entry of a tick and a word, and both of an entry.
fn entries(tick: u64, word: u16) -> Counted {
    let expected = (tick <= merge_lists::LAST_TICK).then(|| entry(tick, word));
    let found = shabgozim::entry(tick, word);
    let what = format_args!("entry of tick {tick}, word {word:04X}");
    let count = same(what, found, expected)?;
    match found {
        None => Ok(count),
        Some(entry) => Ok(count + same(what, shabgozim::tick_and_word(entry), (tick, word))?),
    }
}

/// Two lists, some of them refused.
fn any_lists(random: &mut Random) -> MergeCase {
    let mut case = merge_lists::any(random, 40);
    match random.below(6) {
        0 => same_tick(random, &mut case),
        1 if case.ccd.len() > 1 => not_rising(random, &mut case.ccd, 1),
        2 => case.room = Some(random.below(20)),
        _ => {}
    }
    case
}

/// The merged entries and the rest, or the refusal.
fn merged(paper: &Typed, case: &MergeCase) -> Counted {
    let MergeCase { ccd, infrared, .. } = case;
    let room = case.room.unwrap_or(ccd.len() + infrared.len());
    let mut places = vec![0; room];
    let found = shabgozim::merge(ccd, infrared, &mut places);
    let found: Result<(Vec<u64>, RestOf), Refused> = found
        .map(|done| (places[..done.count].to_vec(), rest(done.rest)))
        .map_err(|refusal| (refusal.number(), refusal.in_words()));
    let expected = (paper.merge)(ccd, infrared, room);
    let expected = expected
        .map(|done| {
            let (operator, list) = match done.list {
                CCD_LIST => (Operator::Ccd, ccd),
                _ => (Operator::Infrared, infrared),
            };
            (done.entries, (operator, list[done.start..].to_vec()))
        })
        .map_err(|number| (number, line(paper, number)));
    same(case, found, expected)
}

fn rest(rest: Rest) -> RestOf {
    (rest.operator(), rest.entries().to_vec())
}

/// The merged text, or the refusal with whose text it is about, and in words.
fn merged_texts(paper: &Typed, [ccd, infrared]: &[Vec<u8>; 2]) -> Counted {
    let found = shabgozim::merge_texts(ccd, infrared);
    let found = found.map_err(|refusal| {
        let about = match refusal {
            MergeTextsRefusal::NoList(operator, refusal) => Some((operator as u8, refusal.line)),
            MergeTextsRefusal::SameTick => None,
        };
        (refusal.number(), about, refusal.in_words())
    });
    let expected = (paper.merge_texts)(ccd, infrared);
    let expected = expected.map(|text| String::from_utf8_lossy(&text).into_owned());
    let expected = expected.map_err(|refused| {
        let (about, words) = match refused {
            TextsRefusal::Text { list, refusal } => {
                (Some((list, refusal.line as u32)), refusal.in_words())
            }
            TextsRefusal::SameTick => (None, line(paper, refused.number() as u8)),
        };
        (refused.number() as u8, about, words)
    });
    let shown = |text: &[u8]| String::from_utf8_lossy(text).into_owned();
    let (ccd, infrared) = (shown(ccd), shown(infrared));
    same(format_args!("{ccd:?} and {infrared:?}"), found, expected)
}
