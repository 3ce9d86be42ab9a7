//! A pixel map as a raw portable bitmap.

use super::pixel_map::{PixelMap, BYTE_BITS, COLUMNS, PIXELS, ROWS, TOP_BIT};

/// Bytes of a row; those of the next begin a byte of their own.
const ROW_BYTES: usize = COLUMNS.div_ceil(BYTE_BITS);

impl PixelMap<'_> {
    /// The bytes of the picture; a lighted pixel is 1.
    pub fn picture(&self) -> Vec<u8> {
        let mut picture = self.header().into_bytes();
        picture.extend((0..ROWS).flat_map(|row| self.row_bytes(row)));
        picture
    }

    fn header(&self) -> String {
        let (lighted, readout) = (self.lighted(), self.readout());
        format!(
            "P4\n\
             # lighted {lighted} of {PIXELS} pixels, readout {readout} us\n\
             {COLUMNS} {ROWS}\n"
        )
    }

    fn row_bytes(&self, row: usize) -> [u8; ROW_BYTES] {
        let mut bytes = [0; ROW_BYTES];
        for column in 0..COLUMNS {
            if self.is_lighted(row, column) {
                bytes[column / BYTE_BITS] |= TOP_BIT >> (column % BYTE_BITS);
            }
        }
        bytes
    }
}
