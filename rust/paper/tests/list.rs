//! Lists of timed words in one call.

mod common;

use common::{random_state, Random};
use paper::list::pass;
use paper::state::{MIRROR_TICKS, MOST_ACQUISITION_TICKS, MOST_COVER_TICKS};
use paper::{in_range, list, power_on, tick, translate, word, MirrorSet, State};

const NO_OUTCOME: u16 = 0xAAAA;

/// Gives a list that must be done; the outcomes have more room than it needs.
fn done(state: &mut State, words: &[u16], ticks: &[u32]) -> Vec<u16> {
    let mut outcomes = vec![NO_OUTCOME; words.len() + 3];
    assert_eq!(list(state, words, ticks, &mut outcomes), 0);
    let left = outcomes.split_off(words.len());
    assert_eq!(left, [NO_OUTCOME; 3]);
    outcomes
}

/// The refusal of a list, which must change nothing.
fn refusal(given: &State, words: &[u16], ticks: &[u32], room: usize) -> u16 {
    let mut state = *given;
    let mut outcomes = vec![NO_OUTCOME; room];
    let number = list(&mut state, words, ticks, &mut outcomes);
    assert_ne!(number, 0);
    assert_eq!(state, *given);
    assert_eq!(outcomes, vec![NO_OUTCOME; room]);
    number
}

/// So many neighbouring ticks.
fn neighbouring(count: u32) -> Vec<u32> {
    (0..count).collect()
}

fn moving_head() -> State {
    let mut head = power_on();
    (head.mirror_motion, head.cover_motion) = (MIRROR_TICKS, MOST_COVER_TICKS);
    head
}

fn out_of_range() -> State {
    let mut head = power_on();
    head.task = 3;
    head
}

#[test]
fn an_empty_list_changes_nothing() {
    for given in [power_on(), moving_head()] {
        let mut head = given;
        assert_eq!(list(&mut head, &[], &[], &mut []), 0);
        assert_eq!(done(&mut head, &[], &[]), []);
        assert_eq!(head, given);
    }
}

#[test]
fn the_first_word_goes_at_once_whatever_its_tick() {
    for first in [0, 1, 29, 70_000, u32::MAX - 1] {
        let mut head = moving_head();
        assert_eq!(done(&mut head, &[0, 0], &[first, first + 1]), [0, 0]);
        assert_eq!(
            (head.mirror_motion, head.cover_motion),
            (MIRROR_TICKS - 2, MOST_COVER_TICKS - 2)
        );
    }
    let mut head = moving_head();
    assert_eq!(done(&mut head, &[0x1001], &[u32::MAX]), [22]);
    assert_eq!(head.cover_motion, 2024);
}

#[test]
fn the_last_words_own_tick_passes() {
    let mut head = power_on();
    assert_eq!(done(&mut head, &[0x8000], &[0]), [1]);
    assert_eq!(head.busy, 157);
    let mut head = power_on();
    assert_eq!(done(&mut head, &[0x4000, 0, 0], &[5, 6, 7]), [2, 22, 22]);
    assert_eq!((head.busy, head.ir_time_flag), (0, 0));
}

#[test]
fn the_ticks_between_words_pass() {
    let mut head = power_on();
    assert_eq!(done(&mut head, &[0x4000, 0x4000], &[0, 2]), [2, 22]);
    let mut head = power_on();
    assert_eq!(done(&mut head, &[0x4000, 0x4000], &[0, 3]), [2, 2]);
    let words = [0x1001, 0x1202, 0x1202];
    let mut head = power_on();
    assert_eq!(done(&mut head, &words, &[9, 33, 34]), [0x1001, 22, 0x1202]);
    assert_eq!((head.cover_motion, head.ir_time_flag), (49, 1));
}

#[test]
fn an_ignored_word_in_the_middle_does_not_stop_the_rest() {
    let words = [
        0xD801, 0x3800, 0x1804, 0xA000, 0x8000, 0x9001, 0xC000, 0x9001,
    ];
    let outcomes = [0, 23, 24, 25, 1, 22, 0, 0];
    let mut head = power_on();
    assert_eq!(done(&mut head, &words, &neighbouring(8)), outcomes);
    let settings = head.settings;
    assert_eq!((settings.detector, settings.window_mode), (1, 1));
    assert_eq!(head.busy, 0);
    let flags = head.error_flags();
    assert!(flags.ir_time && flags.ir_word && flags.ir_scan);
    assert!(flags.vis_time && flags.vis_word);
}

#[test]
fn document_01s_plan_as_a_list() {
    const PLAN: [u8; 13] = [1, 0, 10, 5, 12, 0xFF, 0, 0x0F, 0xF8, 1, 15, 1, 16];
    let (mut words, mut ticks) = ([0; 6], [0; 6]);
    assert!(translate(&power_on(), &PLAN, &mut words, &mut ticks).is_ok());
    let mut head = power_on();
    assert_eq!(done(&mut head, &words, &ticks), [0, 0, 0, 0, 1, 2]);
    assert_eq!(head.settings.sine, 0x1100);
    assert_eq!((head.task, head.busy), (2, 2));
}

#[test]
fn a_lost_fourth_mirror_word_raises_no_flag() {
    let mut head = power_on();
    let words = [0x2011, 0xA000, 0x600F, 0x8000];
    assert_eq!(done(&mut head, &words, &[0, 1, 2, 69]), [0, 0, 0, 1]);
    assert_eq!(head.settings, power_on().settings);
    let begun = MirrorSet {
        received: 3,
        sin_m: 0x11,
        sin_l: 0,
        cos_m: 0x0F,
    };
    assert_eq!(head.mirror_set, begun);
    assert_eq!(head.error_flags(), power_on().error_flags());
}

/// The outcomes of words given singly, each with the ticks that follow it.
fn singly(state: &mut State, words: &[u16], gaps: &[u32]) -> Vec<u16> {
    let single = |(&code, &gap): (&u16, &u32)| {
        let outcome = word(state, code);
        for _ in 0..gap {
            tick(state);
        }
        outcome
    };
    words.iter().zip(gaps).map(single).collect()
}

#[test]
fn lists_are_as_single_words_and_ticks() {
    let mut random = Random::new(3);
    for _ in 0..2000 {
        let given = random_state(&mut random, true);
        let count = usize::from(random.within(1, 40));
        let words: Vec<u16> = (0..count).map(|_| random.word() & 0xF8FF).collect();
        let gap = |_| u32::from(random.within(1, 8)).pow(2);
        let mut gaps: Vec<u32> = (0..count).map(gap).collect();
        gaps[count - 1] = 1;
        let first = random.next() as u32 >> 1;
        let before = |index: usize| gaps[..index].iter().sum::<u32>();
        let ticks: Vec<u32> = (0..count).map(|index| first + before(index)).collect();
        let (mut head, mut expected) = (given, given);
        let outcomes = done(&mut head, &words, &ticks);
        assert_eq!(outcomes, singly(&mut expected, &words, &gaps));
        assert_eq!(head, expected);
        assert!(in_range(&head));
    }
}

#[test]
fn many_ticks_pass_as_if_singly() {
    let lasting = [MIRROR_TICKS, 156, MOST_COVER_TICKS, MOST_ACQUISITION_TICKS].map(u32::from);
    let mut random = Random::new(4);
    for _ in 0..100 {
        let given = random_state(&mut random, true);
        let mut singly = given;
        for ticks in 0..5000 {
            if [0, 1, 4999].contains(&ticks) || lasting.contains(&ticks) {
                let mut head = given;
                pass(&mut head, ticks);
                assert_eq!(head, singly);
            }
            tick(&mut singly);
        }
        let mut head = given;
        pass(&mut head, u32::MAX);
        assert_eq!(head, singly);
    }
}

#[test]
fn the_longest_gap() {
    let mut head = power_on();
    assert_eq!(done(&mut head, &[0x8000, 0x8000], &[0, u32::MAX]), [1, 1]);
    assert_eq!(head.busy, 157);
}

#[test]
fn up_to_256_words() {
    for count in [1, 255, 256] {
        let words = vec![0; count as usize];
        let outcomes = done(&mut power_on(), &words, &neighbouring(count));
        assert_eq!(outcomes, words);
    }
    for count in [257, 512, 65_536, 65_537] {
        let words = vec![0; count as usize];
        let number = refusal(&power_on(), &words, &neighbouring(count), words.len());
        assert_eq!(number, 31);
    }
}

#[test]
fn ticks_that_do_not_rise() {
    let wrong = [[4, 4, 5], [4, 5, 5], [4, 3, 5], [4, 6, 5], [u32::MAX, 0, 1]];
    for ticks in wrong {
        assert_eq!(refusal(&power_on(), &[0; 3], &ticks, 3), 31);
    }
}

#[test]
fn lists_of_unequal_length() {
    for (words, ticks) in [(0, 1), (1, 0), (2, 3), (3, 2), (256, 257), (257, 256)] {
        let words = vec![0; words];
        assert_eq!(refusal(&power_on(), &words, &neighbouring(ticks), 300), 31);
    }
}

#[test]
fn too_little_room_for_outcomes() {
    for (count, room) in [(1, 0), (2, 1), (2, 0), (256, 255)] {
        let words = vec![0; count as usize];
        let number = refusal(&power_on(), &words, &neighbouring(count), room);
        assert_eq!(number, 31);
    }
    let mut outcomes = [NO_OUTCOME; 2];
    assert_eq!(list(&mut power_on(), &[0, 0], &[0, 1], &mut outcomes), 0);
    assert_eq!(outcomes, [0, 0]);
}

#[test]
fn a_state_out_of_range_comes_before_all_else() {
    let state = out_of_range();
    assert_eq!(refusal(&state, &[], &[], 0), 21);
    assert_eq!(refusal(&state, &[0, 0], &[0, 1], 2), 21);
    assert_eq!(refusal(&state, &[0, 0], &[1, 1], 2), 21);
    assert_eq!(refusal(&state, &[0, 0], &[0], 2), 21);
    assert_eq!(refusal(&state, &[0, 0], &[0, 1], 1), 21);
    assert_eq!(refusal(&state, &[0; 257], &neighbouring(257), 257), 21);
}
