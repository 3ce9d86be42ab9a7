//! The pixel map: which pixels are lighted, and how long their readout takes.

use super::refusal::Refusal;

pub const ROWS: usize = 270;
pub const COLUMNS: usize = 438;
pub const PIXELS: usize = ROWS * COLUMNS;
/// Bytes of a map.
pub const MAP_LENGTH: usize = PIXELS.div_ceil(BYTE_BITS);

pub(super) const BYTE_BITS: usize = 8;
/// The bit of the first pixel of a byte.
pub(super) const TOP_BIT: u8 = 0x80;

/// What a line, a lighted pixel and any other take, in microseconds.
const LINE_TIME: u32 = 40;
const LIGHTED_TIME: u32 = 10;
const DARK_TIME: u32 = 1;

/// Bytes that are looked at together.
const GROUP_BYTES: usize = 64;

/// A map of the right length, its spare bits 0: a bit a pixel, row by row.
#[derive(Clone, Copy)]
pub struct PixelMap<'a> {
    bytes: &'a [u8],
}

impl PixelMap<'_> {
    /// The map with these bytes, or a refusal with 41 or else 42.
    pub fn of(bytes: &[u8]) -> Result<PixelMap<'_>, Refusal> {
        if bytes.len() != MAP_LENGTH {
            return Err(Refusal::MapLength);
        }
        let mut spare = PIXELS..MAP_LENGTH * BYTE_BITS;
        match spare.any(|place| is_set(bytes, place)) {
            true => Err(Refusal::SpareBit),
            false => Ok(PixelMap { bytes }),
        }
    }

    pub fn is_lighted(&self, row: usize, column: usize) -> bool {
        is_set(self.bytes, row * COLUMNS + column)
    }

    /// How many pixels are lighted.
    pub fn lighted(&self) -> u32 {
        self.places().count() as u32
    }

    /// How long the readout takes, line by line, in microseconds.
    pub fn readout(&self) -> u32 {
        const DARK_LINE: u32 = LINE_TIME + COLUMNS as u32 * DARK_TIME;
        let mut lines = [DARK_LINE; ROWS];
        for place in self.places() {
            lines[place / COLUMNS] += LIGHTED_TIME - DARK_TIME;
        }
        lines.iter().sum()
    }

    /// The places of the lighted pixels, counted through all rows. A group of
    /// bytes without any is passed over.
    fn places(&self) -> impl Iterator<Item = usize> + '_ {
        let firsts = (0..).step_by(GROUP_BYTES * BYTE_BITS);
        let groups = self.bytes.chunks(GROUP_BYTES).zip(firsts);
        let with_any = groups.filter(|(group, _)| !is_dark(group));
        with_any.flat_map(|(group, first)| {
            let places = (0..group.len() * BYTE_BITS).filter(|&place| is_set(group, place));
            places.map(move |place| first + place)
        })
    }
}

fn is_dark(bytes: &[u8]) -> bool {
    bytes.iter().fold(0, |all, byte| all | byte) == 0
}

fn is_set(bytes: &[u8], place: usize) -> bool {
    bytes[place / BYTE_BITS] & TOP_BIT >> (place % BYTE_BITS) != 0
}
