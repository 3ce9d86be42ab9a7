//! Two operators' lists merged by tick.

mod common;

use common::Random;
use paper::{merge, merge_answer, merge_texts, operator_refusal};
use paper::{MergeAnswer, Merged, TextRefusal, TextsRefusal};

const LAST_TICK: u64 = (1 << 48) - 1;
const ROOM: usize = 1000;

fn entry(tick: u64, word: u16) -> u64 {
    assert!(tick <= LAST_TICK);
    tick * 65_536 + u64::from(word)
}

/// Entries at these ticks, the word of each telling its list.
fn at(ticks: &[u64], word: u16) -> Vec<u64> {
    ticks.iter().map(|&tick| entry(tick, word)).collect()
}

fn ccd(ticks: &[u64]) -> Vec<u64> {
    at(ticks, 0x9801)
}

fn infrared(ticks: &[u64]) -> Vec<u64> {
    at(ticks, 0x0802)
}

fn merged(entries: &[u64], list: u8, start: usize) -> Result<Merged, u8> {
    let entries = entries.to_vec();
    Ok(Merged {
        entries,
        list,
        start,
    })
}

fn answer(number: u8, list: u8, count: usize, start: usize) -> MergeAnswer {
    MergeAnswer {
        number,
        list,
        count,
        start,
    }
}

#[test]
fn the_ccd_list_runs_out() {
    let (ccd, infrared) = (ccd(&[1, 5]), infrared(&[2, 3, 7, 9]));
    let entries = [ccd[0], infrared[0], infrared[1], ccd[1]];
    assert_eq!(merge(&ccd, &infrared, ROOM), merged(&entries, 1, 2));
    assert_eq!(merge_answer(&ccd, &infrared, ROOM), answer(0, 1, 4, 2));
}

#[test]
fn the_infrared_list_runs_out() {
    let (ccd, infrared) = (ccd(&[2, 3, 7, 9]), infrared(&[0, 8]));
    let entries = [infrared[0], ccd[0], ccd[1], ccd[2], infrared[1]];
    assert_eq!(merge(&ccd, &infrared, ROOM), merged(&entries, 0, 3));
    assert_eq!(merge_answer(&ccd, &infrared, ROOM), answer(0, 0, 5, 3));
}

#[test]
fn one_list_wholly_before_the_other() {
    let (early, late) = (ccd(&[0, 1, 2]), infrared(&[3, 4]));
    assert_eq!(merge(&early, &late, ROOM), merged(&early, 1, 0));
    let (late, early) = (ccd(&[3, 4]), infrared(&[0, 1, 2]));
    assert_eq!(merge(&late, &early, ROOM), merged(&early, 0, 0));
}

#[test]
fn an_empty_list_has_run_out_at_once() {
    let (ccd, infrared) = (ccd(&[4, 5]), infrared(&[6, 7, 8]));
    assert_eq!(merge(&[], &infrared, 0), merged(&[], 1, 0));
    assert_eq!(merge(&ccd, &[], 0), merged(&[], 0, 0));
    assert_eq!(merge_answer(&[], &infrared, 0), answer(0, 1, 0, 0));
    assert_eq!(merge_answer(&ccd, &[], 0), answer(0, 0, 0, 0));
}

#[test]
fn both_empty_leave_the_rest_of_the_infrared_list() {
    assert_eq!(merge(&[], &[], 0), merged(&[], 1, 0));
    assert_eq!(merge_answer(&[], &[], 0), answer(0, 1, 0, 0));
}

#[test]
fn words_do_not_decide_the_order() {
    let ccd = [entry(1, 0xFFFF), entry(3, 0)];
    let infrared = [entry(2, 0), entry(4, 0xFFFF)];
    let entries = [ccd[0], infrared[0], ccd[1]];
    assert_eq!(merge(&ccd, &infrared, ROOM), merged(&entries, 1, 1));
    // A greater word at the same tick does not make the ticks rise, nor a
    // smaller one later let them fall.
    let same = [entry(1, 0), entry(1, 0xFFFF)];
    assert_eq!(merge(&same, &[], ROOM), Err(52));
    let rising = [entry(1, 0xFFFF), entry(2, 0)];
    assert_eq!(merge(&rising, &[], ROOM), merged(&[], 0, 0));
    assert_eq!(merge(&[entry(1, 0)], &[entry(1, 0xFFFF)], ROOM), Err(53));
}

#[test]
fn any_word_is_merged() {
    let (ccd, infrared) = ([entry(0, 0x3800)], [entry(1, 0xC000)]);
    assert_eq!(merge(&ccd, &infrared, ROOM), merged(&ccd, 1, 0));
}

#[test]
fn the_last_tick_there_is() {
    let last = entry(LAST_TICK, 0xFFFF);
    assert_eq!(last, u64::MAX);
    let before = entry(LAST_TICK - 1, 0xFFFF);
    assert_eq!(merge(&[last], &[before], ROOM), merged(&[before], 0, 0));
    assert_eq!(merge(&[before], &[last], ROOM), merged(&[before], 1, 0));
    let first = entry(0, 0xFFFF);
    let rest = merged(&[first, before], 0, 1);
    assert_eq!(merge(&[first, last], &[before], ROOM), rest);
    assert_eq!(merge(&[last], &[entry(LAST_TICK, 0)], ROOM), Err(53));
    assert_eq!(merge(&[entry(LAST_TICK, 0), last], &[], ROOM), Err(52));
}

#[test]
fn ticks_of_more_than_32_bits() {
    let late = 1 << 32;
    let (ccd, infrared) = (ccd(&[7, late + 5]), infrared(&[5, late + 4, late + 7]));
    let entries = [infrared[0], ccd[0], infrared[1], ccd[1]];
    assert_eq!(merge(&ccd, &infrared, ROOM), merged(&entries, 1, 2));
}

#[test]
fn room_for_the_merged_part_alone() {
    let (ccd, infrared) = (ccd(&[1, 5]), infrared(&[2, 3, 7, 9]));
    let whole = merge(&ccd, &infrared, ROOM);
    assert!(whole.is_ok());
    assert_eq!(merge(&ccd, &infrared, 4), whole);
    for room in 0..4 {
        assert_eq!(merge(&ccd, &infrared, room), Err(54));
        assert_eq!(merge_answer(&ccd, &infrared, room), answer(54, 1, 0, 4));
    }
}

#[test]
fn a_refusal_leaves_the_empty_end_of_the_infrared_list() {
    // Otherwise the rest would be of the CCD list.
    let (long, short) = (ccd(&[1, 5, 9]), infrared(&[2]));
    assert_eq!(merge_answer(&long, &short, ROOM), answer(0, 0, 2, 1));
    assert_eq!(merge_answer(&long, &short, 1), answer(54, 1, 0, 1));
    let same = infrared(&[2, 5]);
    assert_eq!(merge_answer(&long, &same, ROOM), answer(53, 1, 0, 2));
    let falling = infrared(&[2, 4, 3]);
    assert_eq!(merge_answer(&long, &falling, ROOM), answer(52, 1, 0, 3));
    assert_eq!(merge_answer(&falling, &[], ROOM), answer(52, 1, 0, 0));
}

#[test]
fn ticks_that_do_not_rise() {
    for ticks in [
        [4, 4, 5],
        [4, 5, 5],
        [4, 3, 5],
        [4, 6, 5],
        [LAST_TICK, 0, 1],
    ] {
        assert_eq!(merge(&ccd(&ticks), &infrared(&[7]), ROOM), Err(52));
        assert_eq!(merge(&ccd(&[7]), &infrared(&ticks), ROOM), Err(52));
        assert_eq!(merge(&ccd(&ticks), &[], ROOM), Err(52));
        assert_eq!(merge(&[], &infrared(&ticks), ROOM), Err(52));
    }
    // Also behind the merged part.
    assert_eq!(merge(&ccd(&[1]), &infrared(&[2, 9, 8]), ROOM), Err(52));
}

#[test]
fn the_same_tick_in_both() {
    for (one, other) in [
        (vec![3], vec![3]),
        (vec![1, 3], vec![2, 3]),
        (vec![1, 3, 9], vec![0, 1]),
        (vec![9], vec![1, 5, 9, 10]),
    ] {
        assert_eq!(merge(&ccd(&one), &infrared(&other), ROOM), Err(53));
        assert_eq!(merge(&ccd(&other), &infrared(&one), ROOM), Err(53));
    }
}

#[test]
fn the_order_of_refusals() {
    let (ccd, falling) = (ccd(&[1, 3]), infrared(&[2, 3, 3]));
    assert_eq!(merge(&ccd, &falling, 0), Err(52));
    assert_eq!(merge(&falling, &ccd, 0), Err(52));
    assert_eq!(merge(&ccd, &infrared(&[2, 3]), 0), Err(53));
    assert_eq!(merge(&ccd, &infrared(&[2, 4]), 0), Err(54));
}

/// Merges entry by entry, always the one with the earlier tick.
fn slowly(ccd: &[u64], infrared: &[u64]) -> Result<Merged, u8> {
    let mut entries = Vec::new();
    let (mut one, mut other) = (0, 0);
    while one < ccd.len() && other < infrared.len() {
        if ccd[one] >> 16 < infrared[other] >> 16 {
            entries.push(ccd[one]);
            one += 1;
        } else {
            entries.push(infrared[other]);
            other += 1;
        }
    }
    match one < ccd.len() {
        true => merged(&entries, 0, one),
        false => merged(&entries, 1, other),
    }
}

/// Rising ticks without one in common, in two lists, with random words.
fn random_lists(random: &mut Random) -> [Vec<u64>; 2] {
    let mut lists = [Vec::new(), Vec::new()];
    let mut tick = 0;
    for _ in 0..random.within(0, 12) {
        tick += u64::from(random.within(1, 3));
        let list = usize::from(random.bit());
        lists[list].push(entry(tick, random.word()));
    }
    lists
}

#[test]
fn random_lists_as_entry_by_entry() {
    let mut random = Random::new(61);
    for _ in 0..20_000 {
        let [ccd, infrared] = random_lists(&mut random);
        assert_eq!(merge(&ccd, &infrared, ROOM), slowly(&ccd, &infrared));
    }
}

/// A text with these lines after the title.
fn text(lines: &str) -> Vec<u8> {
    format!("tick word\n{lines}").into_bytes()
}

fn texts(ccd: &str, infrared: &str) -> Result<Vec<u8>, TextsRefusal> {
    merge_texts(&text(ccd), &text(infrared))
}

fn refused(list: u8, number: u16, line: usize) -> Result<Vec<u8>, TextsRefusal> {
    let refusal = TextRefusal { number, line };
    Err(TextsRefusal::Text { list, refusal })
}

#[test]
fn texts_are_merged_to_the_end_of_both() {
    let (one, other) = ("2 9bff\n11 1805\nend 900\n", "0 8801\n10 f3Ff\n12 0000");
    let lines = text("0 8801\n2 9BFF\n10 F3FF\n11 1805\n12 0000\n");
    assert_eq!(texts(one, other), Ok(lines.clone()));
    assert_eq!(texts(other, one), Ok(lines));
}

#[test]
fn texts_of_empty_lists() {
    assert_eq!(texts("", ""), Ok(text("")));
    assert_eq!(texts("end 7\n", "end 7"), Ok(text("")));
    assert_eq!(merge_texts(b"tick word", b"tick word"), Ok(text("")));
    assert_eq!(texts("", "5 abcd"), Ok(text("5 ABCD\n")));
    assert_eq!(texts("4294967295 FFFF", ""), Ok(text("4294967295 FFFF\n")));
}

#[test]
fn the_tick_of_an_end_line_is_no_entry() {
    assert_eq!(
        texts("1 0000\nend 2\n", "2 0000\n"),
        Ok(text("1 0000\n2 0000\n"))
    );
}

/// So many words NOP at every second tick from this one on.
fn nops(count: u32, from: u32) -> String {
    let lines = (0..count).map(|index| format!("{} 0000\n", from + 2 * index));
    lines.collect()
}

#[test]
fn texts_of_up_to_256_words_each() {
    let lines: String = (0..512).map(|tick| format!("{tick} 0000\n")).collect();
    assert_eq!(texts(&nops(256, 0), &nops(256, 1)), Ok(text(&lines)));
    let refusal = refused(1, 94, 258);
    assert_eq!(texts(&nops(256, 0), &nops(257, 1)), refusal);
}

#[test]
fn texts_that_are_no_lists() {
    assert_eq!(merge_texts(b"", &text("")), refused(0, 91, 1));
    assert_eq!(merge_texts(&text(""), b"tick\n"), refused(1, 91, 1));
    assert_eq!(texts("0 400\n", ""), refused(0, 92, 2));
    assert_eq!(texts("", "0 4000\nx\n"), refused(1, 92, 3));
    assert_eq!(texts("5 0000\n5 0001\n", ""), refused(0, 93, 3));
    assert_eq!(texts("", "5 0000\n4 0000\n"), refused(1, 93, 3));
    assert_eq!(texts("end 0\n1 0000\n", ""), refused(0, 95, 3));
    assert_eq!(texts("", &"x".repeat(8192)), refused(1, 96, 2));
}

#[test]
fn the_order_of_refusals_of_texts() {
    assert_eq!(texts("x", "5 0000\n5 0000\n"), refused(0, 92, 2));
    assert_eq!(texts("5 0000", "5 0000\n5 0000\n"), refused(1, 93, 3));
    let same = texts("1 0000\n5 0000\n", "5 0001\n6 0000\n");
    assert_eq!(same, Err(TextsRefusal::SameTick));
    let number = |answer: Result<Vec<u8>, TextsRefusal>| answer.unwrap_err().number();
    assert_eq!((number(same), number(texts("x", ""))), (53, 92));
}

/// The lines of a merge: its merged part, and the rest.
fn whole(ccd: &[u64], infrared: &[u64]) -> String {
    let Merged {
        mut entries,
        list,
        start,
    } = merge(ccd, infrared, ROOM).unwrap();
    entries.extend(&[ccd, infrared][usize::from(list)][start..]);
    lines(&entries)
}

fn lines(entries: &[u64]) -> String {
    let line = |entry: &u64| format!("{} {:04X}\n", entry >> 16, entry & 0xFFFF);
    entries.iter().map(line).collect()
}

#[test]
fn a_merged_text_is_the_merged_part_and_the_rest() {
    let mut random = Random::new(62);
    for _ in 0..2000 {
        let [ccd, infrared] = random_lists(&mut random);
        let answer = texts(&lines(&ccd), &lines(&infrared));
        assert_eq!(answer, Ok(text(&whole(&ccd, &infrared))));
    }
}

#[test]
fn refusals_in_words() {
    let words = |number| operator_refusal(number).map(|line| String::from_utf8(line).unwrap());
    let lines = [
        "refused 51: the word is not passed on: not allowed, not in the operator's group, or the head is busy\n",
        "refused 52: the ticks of a list do not rise\n",
        "refused 53: the same tick in both lists\n",
        "refused 54: no room for the merged part\n",
    ];
    for (number, line) in (51..).zip(lines) {
        assert_eq!(words(number).as_deref(), Some(line));
    }
    for number in (0..=50).chain(55..=255) {
        assert_eq!(words(number), None);
    }
}
