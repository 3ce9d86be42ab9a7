//! How many places there are for what is written.

use crate::random::Random;
use std::fmt;

#[derive(Clone, Copy, PartialEq, Eq)]
pub enum Room {
    /// Enough for everything.
    Every,
    /// As many as are needed, and so many more or fewer.
    Beside(isize),
}

impl Room {
    /// Often just enough, or one place less or more.
    pub fn any(random: &mut Random) -> Room {
        match random.below(8) {
            0 => Room::Beside(-1),
            1 => Room::Beside(0),
            2 => Room::Beside(1),
            3 => Room::Beside(-(random.below(300) as isize)),
            _ => Room::Every,
        }
    }

    /// The places, where so many are needed and there are not more than `most`.
    pub fn places(self, needed: impl FnOnce() -> usize, most: usize) -> usize {
        match self {
            Room::Every => most,
            Room::Beside(by) => needed().saturating_add_signed(by).min(most),
        }
    }

    /// Rooms that are plainer.
    pub fn plainer(self) -> Vec<Room> {
        match self {
            Room::Every => Vec::new(),
            Room::Beside(0) => vec![Room::Every],
            Room::Beside(by) => vec![Room::Every, Room::Beside(by.signum()), Room::Beside(0)]
                .into_iter()
                .filter(|room| *room != self)
                .collect(),
        }
    }
}

impl fmt::Display for Room {
    fn fmt(&self, out: &mut fmt::Formatter) -> fmt::Result {
        match self {
            Room::Every => write!(out, "every place"),
            Room::Beside(by) => write!(out, "the places needed {by:+}"),
        }
    }
}
