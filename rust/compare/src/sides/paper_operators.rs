//! Two operators on one head, and their lists merged, by the implementation
//! written from the documents, behind the library's interface.

use super::paper::{places, STATE_REFUSED};
use super::Merged;
use paper::{State, TextsRefusal};

const TOO_SHORT: u64 = 10;

#[no_mangle]
#[inline(never)]
pub fn paper_group(kind: u8) -> u32 {
    u32::from(paper::group_number(kind))
}

#[no_mangle]
#[inline(never)]
pub fn paper_pass_on(state: &mut [u16], operator: u8, word: u16) -> u32 {
    let Some(places) = places(state) else {
        return STATE_REFUSED;
    };
    let mut head = State::from_array(places);
    let answer = paper::pass_on(&mut head, operator, word);
    *places = head.to_array();
    u32::from(answer)
}

#[no_mangle]
#[inline(never)]
pub fn paper_merge(ccd: &[u64], infrared: &[u64], merged: &mut [u64]) -> Merged {
    let answer = paper::merge_answer(ccd, infrared, merged.len());
    if let Ok(done) = paper::merge(ccd, infrared, merged.len()) {
        merged[..done.entries.len()].copy_from_slice(&done.entries);
    }
    Merged {
        number: answer.number.into(),
        rest_of: answer.list.into(),
        count: answer.count,
        rest_start: answer.start,
    }
}

pub fn merge_texts(ccd: &[u8], infrared: &[u8], text: &mut [u8]) -> u64 {
    let merged = match paper::merge_texts(ccd, infrared) {
        Ok(merged) => merged,
        Err(refusal) => return packed(&refusal),
    };
    let length = (merged.len() as u64) << 32;
    match text.get_mut(..merged.len()) {
        None => TOO_SHORT | length,
        Some(places) => {
            places.copy_from_slice(&merged);
            length
        }
    }
}

/// The number; for a text also whose it is, and the line.
fn packed(refused: &TextsRefusal) -> u64 {
    let number = u64::from(refused.number());
    match *refused {
        TextsRefusal::SameTick => number,
        TextsRefusal::Text { list, refusal } => {
            number | u64::from(list) << 8 | (refusal.line as u64) << 32
        }
    }
}

pub fn refusal(number: u8, text: &mut [u8]) -> u32 {
    let line = paper::operator_refusal(number).unwrap_or_default();
    match text.get_mut(..line.len()) {
        None => 0,
        Some(places) => {
            places.copy_from_slice(&line);
            line.len() as u32
        }
    }
}
