//! One pixel map's lighted pixels or readout on both sides, compared and made
//! darker.

use super::shorter_maps::{describe, shorter};
use crate::buffer::Buffer;
use crate::reduce::{failure, Case, Counted};
use crate::sides::{Functions, Sides};
use std::fmt;

/// Pixels and spare bits before and after a map, so that a bit that is read
/// there shows.
const MARGIN: u8 = 0xFF;

/// What is asked about a map.
#[derive(Clone, Copy)]
enum Asked {
    Lighted,
    Readout,
}

#[derive(Clone)]
struct MapCase {
    asked: Asked,
    map: Buffer<u8>,
}

impl Asked {
    fn answer(self, side: &Functions, map: &Buffer<u8>) -> u32 {
        match self {
            Asked::Lighted => (side.h_lighted)(map.values()),
            Asked::Readout => (side.h_readout)(map.values()),
        }
    }
}

/// A map between its margins.
pub fn lent(map: &[u8]) -> Buffer<u8> {
    Buffer::holding(map, MARGIN)
}

/// Compares the answers to both questions.
pub fn compare(sides: &Sides, map: &Buffer<u8>) -> Counted {
    for asked in [Asked::Lighted, Asked::Readout] {
        if asked.answer(&sides.library, map) != asked.answer(&sides.paper, map) {
            let map = map.clone();
            return Err(failure(sides, MapCase { asked, map }));
        }
    }
    Ok(2)
}

impl Case for MapCase {
    fn difference(&self, sides: &Sides) -> Option<String> {
        let answer = self.asked.answer(&sides.library, &self.map);
        let expected = self.asked.answer(&sides.paper, &self.map);
        let text = format!("answer: library {answer:#X}, paper {expected:#X}");
        (answer != expected).then_some(text)
    }

    fn shorter(&self) -> Vec<MapCase> {
        let maps = shorter(self.map.values()).into_iter();
        maps.map(|map| MapCase {
            asked: self.asked,
            map: lent(&map),
        })
        .collect()
    }
}

impl fmt::Display for MapCase {
    fn fmt(&self, out: &mut fmt::Formatter) -> fmt::Result {
        let asked = match self.asked {
            Asked::Lighted => "lighted pixels",
            Asked::Readout => "readout",
        };
        write!(out, "{asked} of a {}", describe(self.map.values()))
    }
}
