//! The wrapper's unpacked answers about the high-resolution head against the
//! paper's own types.

use super::maps;
use super::shorter_maps::describe;
use crate::random::Random;
use crate::reduce::{Counted, Failure};
use crate::sides::{Sides, Typed};
use paper::pem_h::{self, Meaning, Read, Refusal};
use shabgozim::{decode_request, encode_request, PixelMap, Request};
use std::fmt::Debug;

/// A refusal by number and in words.
type Refused = (u8, String);

/// Every word, every request with every value, and maps of every sort.
pub fn answers(sides: &Sides, random: &mut Random, times: u32) -> Counted {
    let paper = &sides.typed;
    let mut count = 0;
    for word in 0..=u16::MAX {
        count += read(paper, word)?;
    }
    for request in Request::ALL {
        count += written(paper, request)?;
    }
    let given = maps::refused(random).into_iter().chain(maps::at_limits());
    for map in given {
        count += pixel_map(paper, &map)?;
    }
    for _ in 0..200 * times {
        count += pixel_map(paper, &maps::any(random))?;
    }
    Ok(count)
}

fn same<T: PartialEq + Debug>(what: impl Fn() -> String, found: T, expected: T) -> Counted {
    if found == expected {
        return Ok(1);
    }
    let what = what();
    let text = format!("unpacked, {what}\nlibrary {found:?}\npaper {expected:?}");
    Err(Failure(text))
}

fn refused(refusal: Refusal) -> Refused {
    (refusal.number(), refusal.in_words())
}

/// The requests of a word, by number, and its value.
fn read(paper: &Typed, word: u16) -> Counted {
    let found = decode_request(word);
    let found = found.map(|(meaning, value)| {
        let requests = meaning.requests().iter();
        (requests.map(|request| request.number()).collect(), value)
    });
    let found = found.map_err(|refusal| (refusal.number(), refusal.in_words()));
    let expected = (paper.h_decode)(word);
    let expected = expected.map(requests_and_value).map_err(refused);
    same(|| format!("PEM-H word {word:04X}"), found, expected)
}

fn requests_and_value(read: Read) -> (Vec<u8>, u16) {
    let requests = match read.meaning {
        Meaning::Own(request) => vec![request],
        Meaning::Shared { first, others } => [vec![first], others].concat(),
    };
    (requests, read.value)
}

/// A request's name, and its word with every value.
fn written(paper: &Typed, request: Request) -> Counted {
    let (number, name) = (request.number(), request.name());
    let mut count = same(
        || format!("request {number}"),
        Some(name),
        pem_h::name(number),
    )?;
    for value in 0..=u16::MAX {
        let found = encode_request(request, value).map_err(|refusal| refusal.number());
        let expected = (paper.h_encode)(number, value).map_err(Refusal::number);
        count += same(|| format!("{name} {value:04X}"), found, expected)?;
    }
    Ok(count)
}

/// A map's lighted pixels, readout and picture, or the refusal and its words.
fn pixel_map(paper: &Typed, bytes: &[u8]) -> Counted {
    let found = PixelMap::from_bytes(bytes);
    let found = found.map_err(|refusal| (refusal.number(), refusal.in_words()));
    let expected = (paper.h_map)(bytes).map_err(refused);
    let numbers = found
        .as_ref()
        .map(|map| (map.lighted(), map.readout_microseconds()));
    let expected_numbers = expected.as_ref().map(|map| (map.lighted(), map.readout()));
    let mut count = same(|| describe(bytes), numbers, expected_numbers)?;
    if let (Ok(map), Ok(expected)) = (&found, &expected) {
        count += pictures(bytes, &map.picture(), &expected.picture())?;
    }
    Ok(count)
}

/// A few bytes of each picture, from where they differ.
fn pictures(map: &[u8], found: &[u8], expected: &[u8]) -> Counted {
    const FEW: usize = 8;
    let pairs = found.iter().zip(expected);
    let place = pairs
        .take_while(|(byte, expected)| byte == expected)
        .count();
    let what = || format!("{}\npicture from byte {place}", describe(map));
    let few = |picture: &[u8]| -> Vec<u8> { picture[place..].iter().take(FEW).copied().collect() };
    same(what, few(found), few(expected))
}
