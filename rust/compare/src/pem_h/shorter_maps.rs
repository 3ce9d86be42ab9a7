//! Steps by which a pixel map is made darker or shorter, and what it is called.

use super::maps::bit;
use crate::shorter_lists::parts;
use paper::pem_h::MAP_LENGTH;

/// Of more bytes that are not 0 only the first are shown.
const MOST_SHOWN: usize = 8;

/// Maps with fewer pixels; of a map of a wrong length also shorter ones.
pub fn shorter(map: &[u8]) -> Vec<Vec<u8>> {
    let mut maps = darker(map);
    if map.len() != MAP_LENGTH {
        maps.extend(cut(map));
    }
    maps
}

/// Bits made 0, many and then few.
fn darker(map: &[u8]) -> Vec<Vec<u8>> {
    let bits = 0..8 * map.len();
    let set: Vec<usize> = bits.filter(|&at| map[at / 8] & bit(at) != 0).collect();
    let without = |part: std::ops::Range<usize>| {
        let mut darker = map.to_vec();
        for &at in &set[part] {
            darker[at / 8] &= !bit(at);
        }
        darker
    };
    parts(set.len()).into_iter().map(without).collect()
}

/// Bytes left out at the end, many and then few.
fn cut(map: &[u8]) -> Vec<Vec<u8>> {
    let from_end = parts(map.len())
        .into_iter()
        .filter(|part| part.end == map.len());
    from_end.map(|part| map[..part.start].to_vec()).collect()
}

/// The length, and the bytes that are not 0.
pub fn describe(map: &[u8]) -> String {
    let set: Vec<usize> = (0..map.len()).filter(|&at| map[at] != 0).collect();
    let shown = set.iter().take(MOST_SHOWN);
    let bytes: String = shown
        .map(|&at| format!(" [{at}] = {:02X}", map[at]))
        .collect();
    let rest = match set.len().saturating_sub(MOST_SHOWN) {
        0 => String::new(),
        more => format!(" and {more} more"),
    };
    format!("map of {} bytes{bytes}{rest}", map.len())
}
