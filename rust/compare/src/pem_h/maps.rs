//! Pixel maps to ask about: of every sort, and refused ones.

use crate::random::Random;
use paper::pem_h::{COLUMNS, MAP_LENGTH, PIXELS, ROWS};

/// The bits of the last byte that are no pixels.
const SPARE: u8 = 0x0F;
const LAST: usize = MAP_LENGTH - 1;

/// Near the right length; such as eight or sixteen bits take for it; twice the
/// right length; and those of rows that begin a byte of their own, and of a byte
/// a pixel.
const WRONG_LENGTHS: [usize; 20] = [
    0,
    1,
    2,
    MAP_LENGTH % 256,
    255,
    256,
    MAP_LENGTH - 256,
    MAP_LENGTH - 2,
    MAP_LENGTH - 1,
    MAP_LENGTH + 1,
    MAP_LENGTH + 2,
    ROWS * COLUMNS.div_ceil(8),
    MAP_LENGTH + 256,
    2 * MAP_LENGTH - 1,
    2 * MAP_LENGTH,
    (1 << 16) - 1,
    1 << 16,
    (1 << 16) + MAP_LENGTH,
    (1 << 17) + MAP_LENGTH,
    PIXELS,
];

/// How many pixels are lighted for eight orders.
const EIGHT_ORDERS: usize = 8 * 5 * 432;
/// Pixels this far apart are tried singly.
const APART: usize = 1013;

pub fn dark() -> Vec<u8> {
    vec![0; MAP_LENGTH]
}

pub fn full() -> Vec<u8> {
    let mut map = vec![0xFF; MAP_LENGTH];
    map[LAST] = !SPARE;
    map
}

/// The bit of a pixel or spare bit, counted row by row, in its byte.
pub fn bit(place: usize) -> u8 {
    0x80 >> (place % 8)
}

/// A map in which these pixels are lighted.
pub fn lighted(places: impl IntoIterator<Item = usize>) -> Vec<u8> {
    let mut map = dark();
    for place in places {
        map[place / 8] |= bit(place);
    }
    map
}

/// No pixels, all of them, and one of them lighted or dark: about the ends of
/// the map and of its first and last rows, and others far apart.
pub fn at_limits() -> Vec<Vec<u8>> {
    let ends = [0, COLUMNS, PIXELS - COLUMNS, PIXELS];
    let about = ends
        .into_iter()
        .flat_map(|end| end.saturating_sub(9)..end + 9);
    let places = about.chain((0..PIXELS).step_by(APART));
    let places: Vec<usize> = places.filter(|&place| place < PIXELS).collect();
    let single = places.iter().map(|&place| lighted([place]));
    let all_but = places.iter().map(|&place| all_but(place));
    let with_few = [dark()].into_iter().chain(single);
    with_few.chain([full()]).chain(all_but).collect()
}

fn all_but(place: usize) -> Vec<u8> {
    let mut map = full();
    map[place / 8] &= !bit(place);
    map
}

/// Each row, each column, and each number of pixels that a row may have.
pub fn lines() -> impl Iterator<Item = Vec<u8>> {
    let row = |row| lighted(row * COLUMNS..(row + 1) * COLUMNS);
    let column = |column| lighted((column..PIXELS).step_by(COLUMNS));
    let last = |count| lighted(PIXELS - count..PIXELS);
    let rows_and_columns = (0..ROWS).map(row).chain((0..COLUMNS).map(column));
    rows_and_columns.chain((0..=COLUMNS).map(last))
}

/// So many pixels as eight orders have: the first ones, and eight times five
/// lines of 432.
pub fn eight_orders() -> [Vec<u8>; 2] {
    let lines = (0..8).flat_map(|order| (30 * order + 9..).take(5));
    let pixels = lines.flat_map(|line| (line * COLUMNS + 3..).take(432));
    [lighted(0..EIGHT_ORDERS), lighted(pixels)]
}

/// Maps of wrong lengths, of ones and zeros, and with a spare bit set or
/// without; and maps of the right length with every set of spare bits.
pub fn refused(random: &mut Random) -> Vec<Vec<u8>> {
    let mut maps = Vec::new();
    for length in WRONG_LENGTHS {
        maps.extend([0x00, 0xFF, SPARE, !SPARE].map(|byte| vec![byte; length]));
        maps.extend(with_spare_bits(length));
    }
    for map in [
        dark(),
        full(),
        lighted(PIXELS - 4..PIXELS),
        filled(random, 0),
    ] {
        for spare in 1..=SPARE {
            let mut map = map.clone();
            map[LAST] |= spare;
            maps.push(map);
        }
    }
    maps
}

/// A spare bit in the last byte, and one where the spare bits of a map are.
fn with_spare_bits(length: usize) -> Vec<Vec<u8>> {
    let places = [length.wrapping_sub(1), LAST];
    let places = places.into_iter().filter(|&place| place < length);
    let change = |place: usize| {
        let mut map = vec![0; length];
        map[place] = 0x01;
        map
    };
    places.map(change).collect()
}

/// A map of any sort; some are of a wrong length or have a spare bit set.
pub fn any(random: &mut Random) -> Vec<u8> {
    let rarer = random.below(6);
    let mut map = match random.below(4) {
        0 => lighted((0..random.below(40)).map(|_| random.below(PIXELS))),
        1 => filled(random, rarer).iter().map(|byte| !byte).collect(),
        _ => filled(random, rarer),
    };
    map[LAST] &= !SPARE;
    match random.below(16) {
        0 => map[LAST] |= 1 << random.below(4),
        1 => map.resize(random.below(2 * MAP_LENGTH), random.byte()),
        _ => {}
    }
    map
}

/// Random pixels, rarer where a number is greater; spare bits are 0.
fn filled(random: &mut Random, rarer: usize) -> Vec<u8> {
    let mut map = dark();
    map.fill_with(|| (0..rarer).fold(random.byte(), |byte, _| byte & random.byte()));
    map[LAST] &= !SPARE;
    map
}

#[cfg(test)]
mod tests {
    use super::*;
    use paper::pem_h::PixelMap;

    /// How many pixels are lighted, or the number of the refusal.
    fn judged(map: &[u8]) -> Result<u32, u8> {
        let judged = PixelMap::of(map).map(|map| map.lighted());
        judged.map_err(|refusal| refusal.number())
    }

    #[test]
    fn refused_maps_are_refused() {
        let maps = refused(&mut Random::new(1));
        let refusals: Vec<u8> = maps.iter().filter_map(|map| judged(map).err()).collect();
        assert_eq!(refusals.len(), maps.len());
        assert_eq!(refusals.iter().filter(|&&number| number == 42).count(), 60);
    }

    #[test]
    fn lighted_pixels_of_maps_at_the_limits() {
        let most = PIXELS as u32;
        for map in at_limits() {
            let lighted = judged(&map).expect("a pixel map");
            assert!([0, 1, most - 1, most].contains(&lighted), "{lighted}");
        }
        assert_eq!(eight_orders().map(|map| judged(&map)), [Ok(17_280); 2]);
    }

    #[test]
    fn lines_have_up_to_a_row_of_pixels() {
        let lines = lines().map(|map| judged(&map).expect("a pixel map"));
        let lines: Vec<u32> = lines.collect();
        assert_eq!(lines.iter().min(), Some(&0));
        assert_eq!(lines.iter().max(), Some(&438));
        assert_eq!(lines.iter().sum::<u32>(), 2 * 118_260 + 438 * 439 / 2);
    }

    #[test]
    fn random_maps_are_sparse_and_dense_and_some_are_refused() {
        let mut random = Random::new(1);
        let judged: Vec<Result<u32, u8>> = (0..300).map(|_| judged(&any(&mut random))).collect();
        let times = |is: fn(&Result<u32, u8>) -> bool| judged.iter().filter(|it| is(it)).count();
        assert!(times(|it| *it == Err(41)) > 5);
        assert!(times(|it| *it == Err(42)) > 5);
        assert!(times(|it| matches!(it, Ok(..=100))) > 20);
        assert!(times(|it| matches!(it, Ok(40_000..=80_000))) > 20);
        assert!(times(|it| matches!(it, Ok(100_000..))) > 20);
    }
}
