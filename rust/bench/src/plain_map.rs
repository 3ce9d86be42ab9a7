//! The measures of a pixel map in plain Rust, behind the library's interface.
//!
//! `paper` visits every pixel. This counts the ones of each byte, as the library
//! does.

use shabgozim::PixelMap;

const LENGTH_REFUSED: u32 = 41 << 24;
const SPARE_REFUSED: u32 = 42 << 24;
const PIXELS: u32 = (PixelMap::ROWS * PixelMap::COLUMNS) as u32;
const LINES: u32 = PixelMap::ROWS as u32;

#[no_mangle]
#[inline(never)]
pub fn plain_h_lighted(map: &[u8]) -> u32 {
    lighted(map).unwrap_or_else(|refused| refused)
}

#[no_mangle]
#[inline(never)]
pub fn plain_h_readout(map: &[u8]) -> u32 {
    match lighted(map) {
        Ok(lit) => 10 * lit + (PIXELS - lit) + 40 * LINES,
        Err(refused) => refused,
    }
}

fn lighted(map: &[u8]) -> Result<u32, u32> {
    let Ok(map) = <&[u8; PixelMap::BYTES]>::try_from(map) else {
        return Err(LENGTH_REFUSED);
    };
    if map[PixelMap::BYTES - 1] & 0x0F != 0 {
        return Err(SPARE_REFUSED);
    }
    Ok(map.iter().map(|byte| byte.count_ones()).sum())
}
