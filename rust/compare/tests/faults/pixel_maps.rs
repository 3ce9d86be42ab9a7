//! Faults in pixel maps and in their pictures.

use crate::fault::{changes, Fault};
use compare::sides::{Paper, Side};
use paper::pem_h::{PixelMap, Refusal, MAP_LENGTH, ROWS};

const MAPS: &str = "pixel maps";
const PICTURES: &str = "pixel map pictures";
const UNPACKED: &str = "PEM-H unpacked answers";

const SPARE: u8 = 0x0F;
/// Bytes of a row of a picture.
const ROW_BYTES: usize = 55;

pub const FAULTS: &[Fault] = &[
    Fault {
        name: "the last byte's upper half is judged in place of its lower one",
        put: |sides| sides.paper.h_lighted = judges_upper_half,
        part: MAPS,
        is_reduced: |text| {
            text == "lighted pixels of a map of 14783 bytes [14782] = 01\n\
                     answer: library 0x2A000000, paper 0x1"
        },
    },
    Fault {
        name: "one of the spare bits is not judged",
        put: |sides| sides.paper.h_readout = leaves_out_spare_bit,
        part: MAPS,
        is_reduced: |text| {
            text == "readout of a map of 14783 bytes [14782] = 08\n\
                     answer: library 0x2A000000, paper 0x1F824"
        },
    },
    Fault {
        name: "a spare bit is judged before the length",
        put: |sides| sides.paper.h_lighted = judges_42_before_41,
        part: MAPS,
        is_reduced: |text| {
            text == "lighted pixels of a map of 1 bytes [0] = 01\n\
                     answer: library 0x29000000, paper 0x2A000000"
        },
    },
    Fault {
        name: "14,782 bytes are counted",
        put: |sides| sides.paper.h_lighted = leaves_out_last_byte,
        part: MAPS,
        is_reduced: |text| {
            text == "lighted pixels of a map of 14783 bytes [14782] = 80\n\
                     answer: library 0x1, paper 0x0"
        },
    },
    Fault {
        name: "a longer map is taken",
        put: |sides| sides.paper.h_lighted = takes_longer_map,
        part: MAPS,
        is_reduced: |text| {
            text == "lighted pixels of a map of 14784 bytes\n\
                     answer: library 0x29000000, paper 0x0"
        },
    },
    Fault {
        name: "a length is taken modulo 65,536",
        put: |sides| sides.paper.h_readout = length_of_16_bits,
        part: MAPS,
        is_reduced: |text| {
            text == "readout of a map of 80319 bytes\nanswer: library 0x29000000, paper 0x1F824"
        },
    },
    Fault {
        name: "the count has sixteen bits",
        put: |sides| sides.paper.h_lighted = count_of_16_bits,
        part: MAPS,
        is_reduced: |text| text.ends_with("\nanswer: library 0x10000, paper 0x0"),
    },
    Fault {
        name: "one pixel is not counted",
        put: |sides| sides.paper.h_lighted = leaves_out_pixel,
        part: MAPS,
        is_reduced: |text| {
            text == "lighted pixels of a map of 14783 bytes [600] = 10\n\
                     answer: library 0x1, paper 0x0"
        },
    },
    Fault {
        name: "one pixel is not counted where it is alone",
        put: |sides| sides.paper.h_lighted = leaves_out_lone_pixel,
        part: MAPS,
        is_reduced: |text| {
            text == "lighted pixels of a map of 14783 bytes [60] = 10\n\
                     answer: library 0x1, paper 0x0"
        },
    },
    Fault {
        name: "a line takes 39",
        put: |sides| sides.paper.h_readout = line_takes_39,
        part: MAPS,
        is_reduced: |text| {
            text == "readout of a map of 14783 bytes\nanswer: library 0x1F824, paper 0x1F716"
        },
    },
    Fault {
        name: "a lighted pixel takes 11",
        put: |sides| sides.paper.h_readout = lighted_takes_11,
        part: MAPS,
        is_reduced: |text| {
            text == "readout of a map of 14783 bytes [0] = 80\n\
                     answer: library 0x1F82D, paper 0x1F82E"
        },
    },
    Fault {
        name: "top and bottom bit of a picture's byte are exchanged",
        put: |sides| sides.paper.h_picture = exchanges_bits,
        part: PICTURES,
        is_reduced: |text| {
            text.starts_with("picture of a map of 14783 bytes [0] = 80\ntext: every place\ntext[")
                && text.ends_with("]: library 0x80, paper 0x1")
        },
    },
    Fault {
        name: "the bits after a picture's row are set",
        put: |sides| sides.paper.h_picture = sets_padding,
        part: PICTURES,
        is_reduced: |text| {
            text.starts_with("picture of a map of 14783 bytes\ntext: every place\ntext[")
                && text.ends_with("]: library 0x0, paper 0x3")
        },
    },
    Fault {
        name: "a picture's rows follow without a gap",
        put: |sides| sides.paper.h_picture = rows_without_gaps,
        part: PICTURES,
        is_reduced: |text| {
            text.starts_with("picture of a map of 14783 bytes [") && changes(text) == 1
        },
    },
    Fault {
        name: "a picture's width and height are exchanged",
        put: |sides| sides.paper.h_picture = exchanges_sides,
        part: PICTURES,
        is_reduced: |text| {
            text.starts_with("picture of a map of 14783 bytes\ntext: every place\ntext[")
                && text.ends_with("]: library 0x34, paper 0x32")
        },
    },
    Fault {
        name: "a picture's comment tells the readout in ms",
        put: |sides| sides.paper.h_picture = tells_ms,
        part: PICTURES,
        is_reduced: |text| {
            text.starts_with("picture of a map of 14783 bytes\ntext: every place\ntext[")
                && text.ends_with("]: library 0x75, paper 0x6D")
        },
    },
    Fault {
        name: "a refused map's picture is begun",
        put: |sides| sides.paper.h_picture = begins_refused_picture,
        part: PICTURES,
        is_reduced: |text| {
            text == "picture of a map of 0 bytes\ntext: every place\n\
                     text[0]: library 0xBB, paper 0x50"
        },
    },
    Fault {
        name: "a picture is begun where there is no room for it",
        put: |sides| sides.paper.h_picture = begins_without_room,
        part: PICTURES,
        is_reduced: |text| {
            text == "picture of a map of 14783 bytes\ntext: the places needed -1\n\
                     text[0]: library 0xBB, paper 0x50"
        },
    },
    Fault {
        name: "just enough room for a picture is refused",
        put: |sides| sides.paper.h_picture = refuses_just_enough,
        part: PICTURES,
        is_reduced: |text| {
            text.starts_with("picture of a map of 14783 bytes\ntext: the places needed +0\n")
                && text.contains("paper number 10,")
        },
    },
    Fault {
        name: "the length is not told where there is no room",
        put: |sides| sides.paper.h_picture = leaves_out_length,
        part: PICTURES,
        is_reduced: |text| {
            text.starts_with("picture of a map of 14783 bytes\ntext: the places needed -1\n")
                && text.ends_with("paper number 10, bits 8-31 0, length 0")
        },
    },
    Fault {
        name: "a spare bit leaves a length in the answer",
        put: |sides| sides.paper.h_picture = refusal_with_length,
        part: PICTURES,
        is_reduced: |text| {
            text.starts_with("picture of a map of 14783 bytes [14782] = 0")
                && changes(text) == 1
                && text.ends_with("paper number 42, bits 8-31 0, length 1")
        },
    },
    Fault {
        name: "a byte past the picture is written",
        put: |sides| sides.paper.h_picture = writes_past_picture,
        part: PICTURES,
        is_reduced: |text| {
            text.starts_with("picture of a map of 14783 bytes\ntext: every place\ntext[")
                && text.ends_with("]: library 0xBB, paper 0x0")
        },
    },
    Fault {
        name: "a map with a spare bit set is refused for its length",
        put: |sides| sides.typed.h_map = length_for_spare_bit,
        part: UNPACKED,
        is_reduced: |text| text.starts_with("unpacked, map of 14783 bytes [14782] = 01\n"),
    },
    Fault {
        name: "a pixel that is alone is taken for the first",
        put: |sides| sides.typed.h_map = lone_pixel_is_the_first,
        part: UNPACKED,
        is_reduced: |text| {
            text.starts_with("unpacked, map of 14783 bytes [0] = 40\npicture from byte ")
        },
    },
];

const WRONG_LENGTH: u32 = 41 << 24;
const SPARE_BIT: u32 = 42 << 24;

/// The map with its last byte, if it has one, changed.
fn with_last(map: &[u8], change: fn(u8) -> u8) -> Vec<u8> {
    let mut map = map.to_vec();
    if let Some(last) = map.last_mut() {
        *last = change(*last);
    }
    map
}

fn judges_upper_half(map: &[u8]) -> u32 {
    Paper::h_lighted(&with_last(map, |last| last.rotate_left(4)))
}

fn leaves_out_spare_bit(map: &[u8]) -> u32 {
    Paper::h_readout(&with_last(map, |last| last & !0x08))
}

fn judges_42_before_41(map: &[u8]) -> u32 {
    match map.last() {
        Some(last) if last & SPARE != 0 => SPARE_BIT,
        _ => Paper::h_lighted(map),
    }
}

fn leaves_out_last_byte(map: &[u8]) -> u32 {
    Paper::h_lighted(&with_last(map, |last| last & SPARE))
}

fn takes_longer_map(map: &[u8]) -> u32 {
    Paper::h_lighted(map.get(..MAP_LENGTH).unwrap_or(map))
}

fn length_of_16_bits(map: &[u8]) -> u32 {
    Paper::h_readout(&map[..map.len() % (1 << 16)])
}

fn count_of_16_bits(map: &[u8]) -> u32 {
    match Paper::h_lighted(map) {
        refused @ WRONG_LENGTH.. => refused,
        count => count & 0xFFFF,
    }
}

fn leaves_out_pixel(map: &[u8]) -> u32 {
    const PIXEL: u8 = 0x10;
    let mut map = map.to_vec();
    if let Some(byte) = map.get_mut(600) {
        *byte &= !PIXEL;
    }
    Paper::h_lighted(&map)
}

fn leaves_out_lone_pixel(map: &[u8]) -> u32 {
    match (Paper::h_lighted(map), map.get(60)) {
        (1, Some(0x10)) => 0,
        (answer, _) => answer,
    }
}

fn line_takes_39(map: &[u8]) -> u32 {
    match Paper::h_readout(map) {
        refused @ WRONG_LENGTH.. => refused,
        readout => readout - ROWS as u32,
    }
}

fn lighted_takes_11(map: &[u8]) -> u32 {
    match Paper::h_readout(map) {
        refused @ WRONG_LENGTH.. => refused,
        readout => readout + Paper::h_lighted(map),
    }
}

/// The paper's picture, the bytes of its rows changed.
fn redrawn(map: &[u8], text: &mut [u8], change: impl Fn(&mut [u8])) -> u64 {
    let answer = Paper::h_picture(map, text);
    if answer as u8 == 0 {
        let length = (answer >> 32) as usize;
        change(&mut text[length - ROWS * ROW_BYTES..length]);
    }
    answer
}

fn exchanges_bits(map: &[u8], text: &mut [u8]) -> u64 {
    redrawn(map, text, |rows| {
        for byte in rows {
            *byte = *byte & 0x7E | *byte >> 7 | *byte << 7;
        }
    })
}

fn sets_padding(map: &[u8], text: &mut [u8]) -> u64 {
    redrawn(map, text, |rows| {
        for row in rows.chunks_mut(ROW_BYTES) {
            row[ROW_BYTES - 1] |= 0x03;
        }
    })
}

fn rows_without_gaps(map: &[u8], text: &mut [u8]) -> u64 {
    redrawn(map, text, |rows| {
        rows.fill(0);
        rows[..MAP_LENGTH].copy_from_slice(map);
    })
}

/// The paper's picture, a part of its header exchanged for another.
fn retitled(map: &[u8], text: &mut [u8], part: &[u8], other: &[u8]) -> u64 {
    let answer = Paper::h_picture(map, text);
    let mut places = text.windows(part.len());
    if let Some(at) = places.position(|found| found == part) {
        text[at..at + other.len()].copy_from_slice(other);
    }
    answer
}

fn exchanges_sides(map: &[u8], text: &mut [u8]) -> u64 {
    retitled(map, text, b"\n438 270\n", b"\n270 438\n")
}

fn tells_ms(map: &[u8], text: &mut [u8]) -> u64 {
    retitled(map, text, b" us\n", b" ms\n")
}

fn begins_refused_picture(map: &[u8], text: &mut [u8]) -> u64 {
    let answer = Paper::h_picture(map, text);
    if let (41, Some(first)) = (answer, text.first_mut()) {
        *first = b'P';
    }
    answer
}

fn begins_without_room(map: &[u8], text: &mut [u8]) -> u64 {
    let answer = Paper::h_picture(map, text);
    if let (10, Some(first)) = (answer as u8, text.first_mut()) {
        *first = b'P';
    }
    answer
}

fn refuses_just_enough(map: &[u8], text: &mut [u8]) -> u64 {
    match text {
        [places @ .., _] => Paper::h_picture(map, places),
        [] => Paper::h_picture(map, text),
    }
}

fn leaves_out_length(map: &[u8], text: &mut [u8]) -> u64 {
    match Paper::h_picture(map, text) {
        answer if answer as u8 == 10 => 10,
        answer => answer,
    }
}

fn refusal_with_length(map: &[u8], text: &mut [u8]) -> u64 {
    match Paper::h_picture(map, text) {
        42 => 42 | 1 << 32,
        answer => answer,
    }
}

fn writes_past_picture(map: &[u8], text: &mut [u8]) -> u64 {
    let answer = Paper::h_picture(map, text);
    if let (0, Some(next)) = (answer as u8, text.get_mut((answer >> 32) as usize)) {
        *next = 0;
    }
    answer
}

fn length_for_spare_bit(map: &[u8]) -> Result<PixelMap<'_>, Refusal> {
    PixelMap::of(map).map_err(|_| Refusal::MapLength)
}

static FIRST_PIXEL: [u8; MAP_LENGTH] = {
    let mut map = [0; MAP_LENGTH];
    map[0] = 0x80;
    map
};

fn lone_pixel_is_the_first(map: &[u8]) -> Result<PixelMap<'_>, Refusal> {
    match PixelMap::of(map)? {
        map if map.lighted() == 1 => PixelMap::of(&FIRST_PIXEL),
        map => Ok(map),
    }
}
