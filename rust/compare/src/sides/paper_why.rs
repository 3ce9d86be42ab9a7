//! Why a word did nothing, by the implementation written from the documents,
//! behind the library's interface.

use super::paper::{load, STATE_REFUSED};

#[no_mangle]
#[inline(never)]
pub fn paper_why(state: &[u16], word: u16) -> u32 {
    match load(state) {
        None => STATE_REFUSED,
        Some(state) => paper::why_answer(paper::why(&state, word)),
    }
}

pub fn explanation(why: u32, text: &mut [u8]) -> u32 {
    let line = paper::explanation(why).unwrap_or_default();
    match text.get_mut(..line.len()) {
        None => 0,
        Some(places) => {
            places.copy_from_slice(line.as_bytes());
            line.len() as u32
        }
    }
}
