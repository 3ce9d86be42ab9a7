//! Pictures: of maps at the limits, refused ones and random ones, with room
//! for the picture, just enough, and too little.

use super::maps::{self, lighted};
use super::picture_case::{Drawer, PictureCase};
use crate::random::Random;
use crate::reduce::Counted;
use crate::room::Room;
use crate::sides::Sides;
use paper::pem_h::{COLUMNS, PIXELS, ROWS};

/// More bytes than a picture's header has, and than the whole picture has.
const LONGEST_HEADER: isize = 80;
const LONGEST: isize = 20_000;

/// Places beside those that a picture needs.
const ROOMS: [Room; 7] = [
    Room::Every,
    Room::Beside(0),
    Room::Beside(-1),
    Room::Beside(1),
    Room::Beside(-LONGEST_HEADER),
    Room::Beside(LONGEST_HEADER),
    Room::Beside(-LONGEST),
];

pub fn pictures(sides: &Sides, random: &mut Random, times: u32) -> Counted {
    let mut drawer = Drawer::new(sides);
    let mut count = every_room(&mut drawer)?;
    for map in maps::refused(random) {
        for room in [Room::Every, Room::Beside(0), Room::Beside(5)] {
            count += drawer.compare(&PictureCase::new(map.clone(), room))?;
        }
    }
    let given = maps::at_limits().into_iter().chain(single_pixels());
    for map in given.chain(maps::lines()) {
        count += drawer.compare(&PictureCase::new(map, Room::any(random)))?;
    }
    for _ in 0..1_000 * times {
        let map = maps::any(random);
        count += drawer.compare(&PictureCase::new(map, Room::any(random)))?;
    }
    Ok(count)
}

/// Pictures whose headers are short and long, in every room.
fn every_room(drawer: &mut Drawer) -> Counted {
    let counts = [
        0, 1, 9, 10, 99, 100, 999, 1_000, 9_999, 10_000, 99_999, 100_000,
    ];
    let maps = counts.map(|count| lighted(0..count)).into_iter();
    let mut count = 0;
    for map in maps.chain([maps::full()]).chain(maps::eight_orders()) {
        for room in ROOMS {
            count += drawer.compare(&PictureCase::new(map.clone(), room))?;
        }
    }
    Ok(count)
}

/// Each pixel of the first and the last row and column, alone.
fn single_pixels() -> impl Iterator<Item = Vec<u8>> {
    let rows = (0..COLUMNS).chain(PIXELS - COLUMNS..PIXELS);
    let columns = (0..ROWS).flat_map(|row| [row * COLUMNS, (row + 1) * COLUMNS - 1]);
    rows.chain(columns).map(|place| lighted([place]))
}
