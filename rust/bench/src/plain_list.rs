//! A list of timed words in plain Rust, behind the library's interface.
//!
//! `paper`'s own list goes tick by tick. This one does what the library is
//! free to do: the range is judged once, and a gap passes at once.

use paper::head::receive_in_range;
use paper::list::MOST_LIST_WORDS;
use paper::state::{in_range, State, STATE_LENGTH, TASK_NONE};

const DONE: u32 = 0;
const STATE_REFUSED: u32 = 21;
const NO_LIST: u32 = 31;

#[no_mangle]
#[inline(never)]
pub fn plain_list(state: &mut [u16], words: &[u16], ticks: &[u32], outcomes: &mut [u16]) -> u32 {
    let Ok(places) = <&mut [u16; STATE_LENGTH]>::try_from(state) else {
        return STATE_REFUSED;
    };
    let mut head = State::from_array(places);
    if !in_range(&head) {
        return STATE_REFUSED;
    }
    if !is_list(words, ticks) || outcomes.len() < words.len() {
        return NO_LIST;
    }
    let gaps = ticks.windows(2).map(|pair| pair[1] - pair[0]);
    let steps = words.iter().zip(gaps.chain([1]));
    for ((&word, gap), outcome) in steps.zip(outcomes) {
        *outcome = receive_in_range(&mut head, word).number();
        pass(&mut head, gap);
    }
    *places = head.to_array();
    DONE
}

fn is_list(words: &[u16], ticks: &[u32]) -> bool {
    words.len() == ticks.len()
        && words.len() <= MOST_LIST_WORDS
        && ticks.windows(2).all(|pair| pair[0] < pair[1])
}

/// Lets so many ticks pass at once. No count in a state is above 65,535.
fn pass(head: &mut State, ticks: u32) {
    let ticks = u16::try_from(ticks).unwrap_or(u16::MAX);
    head.mirror_motion = head.mirror_motion.saturating_sub(ticks);
    head.cover_motion = head.cover_motion.saturating_sub(ticks);
    if head.busy > ticks {
        head.busy -= ticks;
    } else if head.busy > 0 {
        head.busy = 0;
        head.task = TASK_NONE;
        head.clear_error_flags();
    }
}
