//! Lighted pixels and readout: of refused maps, maps at the limits, those of
//! each pixel alone, and random ones.

use super::map_case::{compare, lent};
use super::maps;
use crate::random::Random;
use crate::reduce::Counted;
use crate::sides::Sides;
use paper::pem_h::PIXELS;

pub fn counts(sides: &Sides, random: &mut Random, times: u32) -> Counted {
    let mut count = 0;
    let given = maps::refused(random).into_iter().chain(maps::at_limits());
    let given = given.chain(maps::eight_orders()).chain(maps::lines());
    for map in given {
        count += compare(sides, &lent(&map))?;
    }
    count += each_pixel(sides)?;
    for _ in 0..1_000 * times {
        count += compare(sides, &lent(&maps::any(random)))?;
    }
    Ok(count)
}

/// Each pixel lighted, and no other.
fn each_pixel(sides: &Sides) -> Counted {
    let mut map = lent(&maps::dark());
    let mut count = 0;
    for place in 0..PIXELS {
        map.lent()[place / 8] = maps::bit(place);
        count += compare(sides, &map)?;
        map.lent()[place / 8] = 0;
    }
    Ok(count)
}
