//! The high-resolution head of the implementation written from the documents,
//! behind the library's interface.

use super::paper_texts::store_line;
use paper::pem_h::{self, Meaning, PixelMap, Refusal};

const TOO_SHORT: u64 = 10;
/// Added to the number of the first request that shares a word.
const SHARED: u8 = 0x80;

#[no_mangle]
#[inline(never)]
pub fn paper_h_lighted(map: &[u8]) -> u32 {
    packed(PixelMap::of(map).map(|map| map.lighted()))
}

#[no_mangle]
#[inline(never)]
pub fn paper_h_readout(map: &[u8]) -> u32 {
    packed(PixelMap::of(map).map(|map| map.readout()))
}

#[no_mangle]
#[inline(never)]
pub fn paper_h_decode(word: u16) -> u32 {
    let read = pem_h::decode(word);
    packed(read.map(|read| number(&read.meaning) << 16 | u32::from(read.value)))
}

#[no_mangle]
#[inline(never)]
pub fn paper_h_encode(request: u8, value: u16) -> u32 {
    packed(pem_h::encode(request, value).map(u32::from))
}

fn number(meaning: &Meaning) -> u32 {
    match meaning {
        Meaning::Own(request) => u32::from(*request),
        Meaning::Shared { first, .. } => u32::from(SHARED + first),
    }
}

/// What was answered, or the number of the refusal in the upper byte.
fn packed(answer: Result<u32, Refusal>) -> u32 {
    answer.unwrap_or_else(|refusal| u32::from(refusal.number()) << 24)
}

pub fn picture(map: &[u8], text: &mut [u8]) -> u64 {
    let picture = match PixelMap::of(map) {
        Ok(map) => map.picture(),
        Err(refusal) => return refusal.number().into(),
    };
    let length = (picture.len() as u64) << 32;
    match text.get_mut(..picture.len()) {
        None => TOO_SHORT | length,
        Some(places) => {
            places.copy_from_slice(&picture);
            length
        }
    }
}

pub fn refusal(number: u8, text: &mut [u8]) -> u32 {
    let line = Refusal::of(number).map(Refusal::in_words);
    store_line(line.unwrap_or_default(), text)
}
