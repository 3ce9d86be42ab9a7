//! The picture of one pixel map on both sides, compared and made darker.

use super::map_case::lent;
use super::shorter_maps::{describe, shorter};
use crate::buffer::{difference, Buffer};
use crate::reduce::{failure, Case, Counted};
use crate::room::Room;
use crate::sides::{Functions, Sides};
use crate::text_form::answers_differ;
use paper::pem_h::PixelMap;
use shabgozim::PICTURE_LENGTH;
use std::fmt;

/// A byte that a picture of few pixels has nowhere.
const FILL: u8 = 0xBB;

/// A map, and how many places there are for its picture.
#[derive(Clone)]
pub struct PictureCase {
    pub map: Vec<u8>,
    pub room: Room,
}

/// Has both sides draw pictures, into buffers that are used again.
pub struct Drawer {
    sides: Sides,
    library: Buffer<u8>,
    paper: Buffer<u8>,
}

impl Drawer {
    pub fn new(sides: &Sides) -> Drawer {
        Drawer {
            sides: *sides,
            library: Buffer::filled(PICTURE_LENGTH, FILL),
            paper: Buffer::filled(PICTURE_LENGTH, FILL),
        }
    }

    fn answers(&mut self, case: &PictureCase) -> (u64, u64) {
        let places = case.places();
        self.library.refill(FILL, places);
        self.paper.refill(FILL, places);
        let map = lent(&case.map);
        let draw =
            |side: &Functions, text: &mut Buffer<u8>| (side.h_picture)(map.values(), text.lent());
        let answer = draw(&self.sides.library, &mut self.library);
        (answer, draw(&self.sides.paper, &mut self.paper))
    }

    /// Compares the answers and every place of the picture.
    pub fn compare(&mut self, case: &PictureCase) -> Counted {
        let (answer, expected) = self.answers(case);
        match answer == expected && self.library == self.paper {
            true => Ok(1),
            false => Err(failure(&self.sides, case.clone())),
        }
    }
}

impl PictureCase {
    pub fn new(map: Vec<u8>, room: Room) -> PictureCase {
        PictureCase { map, room }
    }

    fn places(&self) -> usize {
        let length = || PixelMap::of(&self.map).map_or(0, |map| map.picture().len());
        self.room.places(length, PICTURE_LENGTH)
    }
}

impl Case for PictureCase {
    fn difference(&self, sides: &Sides) -> Option<String> {
        let mut drawer = Drawer::new(sides);
        let (answer, expected) = drawer.answers(self);
        let Drawer { library, paper, .. } = drawer;
        answers_differ(answer, expected, "length").or_else(|| difference("text", &library, &paper))
    }

    fn shorter(&self) -> Vec<PictureCase> {
        let rooms = self.room.plainer().into_iter();
        let rooms = rooms.map(|room| PictureCase::new(self.map.clone(), room));
        let maps = shorter(&self.map).into_iter();
        let maps = maps.map(|map| PictureCase::new(map, self.room));
        rooms.chain(maps).collect()
    }
}

impl fmt::Display for PictureCase {
    fn fmt(&self, out: &mut fmt::Formatter) -> fmt::Result {
        writeln!(out, "picture of a {}", describe(&self.map))?;
        write!(out, "text: {}", self.room)
    }
}
