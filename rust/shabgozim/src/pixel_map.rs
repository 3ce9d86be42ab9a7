//! The pixel map of the high-resolution head: which pixels are read, how long
//! that takes, and how the map looks.

use crate::raw;
use crate::text::h_refusal;

/// Bytes that have room for every picture.
pub const PICTURE_LENGTH: usize = 16384;

/// The bits of an answer below its number.
const BELOW_NUMBER: u32 = 0xFF_FFFF;

/// A map with a bit for each pixel, row by row; the first is in the top bit of the
/// first byte. The four bits left over at the end are 0.
///
/// ```
/// use shabgozim::PixelMap;
///
/// let mut map = PixelMap::dark();
/// for column in 0..PixelMap::COLUMNS {
///     map.set(0, column, true);
/// }
/// assert_eq!(map.lighted(), 438);
/// assert_eq!(map.readout_microseconds(), 438 * 10 + 269 * 438 + 270 * 40);
/// assert_eq!(map.bytes()[..2], [0xFF, 0xFF]);
/// ```
#[derive(Clone, Debug, PartialEq, Eq)]
pub struct PixelMap {
    /// What the library accepts as a map.
    bytes: Vec<u8>,
}

/// Why bytes are no map; each with document 02's number.
#[derive(Clone, Copy, Debug, PartialEq, Eq)]
pub enum MapRefusal {
    /// There are not [`PixelMap::BYTES`].
    Length = 41,
    /// One of the four bits after the last pixel is set.
    SpareBit = 42,
}

impl PixelMap {
    pub const ROWS: usize = 270;
    pub const COLUMNS: usize = 438;
    /// How many bytes a map has.
    pub const BYTES: usize = 14_783;

    /// The map in which no pixel is lighted.
    pub fn dark() -> PixelMap {
        PixelMap {
            bytes: vec![0; PixelMap::BYTES],
        }
    }

    /// The map that these bytes are, as the library judges them.
    ///
    /// ```
    /// use shabgozim::{MapRefusal, PixelMap};
    ///
    /// assert_eq!(PixelMap::from_bytes(&[0; 14_783]), Ok(PixelMap::dark()));
    /// assert_eq!(PixelMap::from_bytes(&[0; 14_782]), Err(MapRefusal::Length));
    /// assert_eq!(PixelMap::from_bytes(&[0xFF; 14_783]), Err(MapRefusal::SpareBit));
    /// ```
    pub fn from_bytes(bytes: &[u8]) -> Result<PixelMap, MapRefusal> {
        match raw::h_lighted(bytes) >> 24 {
            0 => Ok(PixelMap {
                bytes: bytes.to_vec(),
            }),
            41 => Err(MapRefusal::Length),
            _ => Err(MapRefusal::SpareBit),
        }
    }

    /// The bytes of the map.
    pub fn bytes(&self) -> &[u8] {
        &self.bytes
    }

    /// Whether the pixel is lighted; rows and columns are counted from 0. None
    /// where the map has no such pixel.
    pub fn is_lighted(&self, row: usize, column: usize) -> Option<bool> {
        let (byte, bit) = place(row, column)?;
        Some(self.bytes[byte] & bit != 0)
    }

    /// Makes the pixel lighted or dark, and says whether the map has it. Where it
    /// does not, nothing changes.
    ///
    /// ```
    /// use shabgozim::PixelMap;
    ///
    /// let mut map = PixelMap::dark();
    /// assert!(map.set(269, 437, true));
    /// assert_eq!(map.is_lighted(269, 437), Some(true));
    /// assert!(!map.set(0, 438, true));
    /// assert_eq!(map.is_lighted(0, 438), None);
    /// assert_eq!(map.lighted(), 1);
    /// ```
    pub fn set(&mut self, row: usize, column: usize, lighted: bool) -> bool {
        let Some((byte, bit)) = place(row, column) else {
            return false;
        };
        match lighted {
            true => self.bytes[byte] |= bit,
            false => self.bytes[byte] &= !bit,
        }
        true
    }

    /// How many pixels are lighted.
    pub fn lighted(&self) -> u32 {
        raw::h_lighted(&self.bytes) & BELOW_NUMBER
    }

    /// The time that the readout takes.
    pub fn readout_microseconds(&self) -> u32 {
        raw::h_readout(&self.bytes) & BELOW_NUMBER
    }

    /// A picture of the map: a raw portable bitmap (PBM, P4) in which lighted
    /// pixels are black. A comment in it tells their number and the readout's
    /// time.
    ///
    /// ```
    /// let picture = shabgozim::PixelMap::dark().picture();
    /// let title = b"P4\n# lighted 0 of 118260 pixels, readout 129060 us\n438 270\n";
    /// assert!(picture.starts_with(title));
    /// assert_eq!(picture.len(), title.len() + 270 * 55);
    /// ```
    pub fn picture(&self) -> Vec<u8> {
        let mut picture = vec![0; PICTURE_LENGTH];
        let answer = raw::h_picture(&self.bytes, &mut picture);
        picture.truncate((answer >> 32) as usize);
        picture
    }
}

/// Where a pixel is: its byte, and its bit in that byte.
fn place(row: usize, column: usize) -> Option<(usize, u8)> {
    if row >= PixelMap::ROWS || column >= PixelMap::COLUMNS {
        return None;
    }
    let pixel = row * PixelMap::COLUMNS + column;
    Some((pixel / 8, 0x80 >> (pixel % 8)))
}

impl MapRefusal {
    /// Document 02's number of this refusal.
    pub fn number(self) -> u8 {
        self as u8
    }

    /// This refusal in words: one line, without its newline.
    ///
    /// ```
    /// use shabgozim::PixelMap;
    ///
    /// let refusal = PixelMap::from_bytes(&[]).unwrap_err();
    /// assert_eq!(refusal.in_words(), "refused 41: a pixel map has 14,783 bytes");
    /// ```
    pub fn in_words(self) -> String {
        h_refusal(self.number())
    }
}
