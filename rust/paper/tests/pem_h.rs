//! The high-resolution head: its requests, its pixel map and the picture.

use paper::pem_h::{decode, encode, name, Meaning, PixelMap, Read, Refusal};
use paper::pem_h::{COLUMNS, MAP_LENGTH, PIXELS, REQUEST_COUNT, ROWS};
use std::collections::{BTreeMap, BTreeSet};

/// Name, first word and last word of each request.
const WORDS: [(&str, u16, u16); REQUEST_COUNT] = [
    ("HSET_Bias", 0x2000, 0x20FF),
    ("HSET_I_Lamp_Spect_T", 0x2400, 0x24FF),
    ("HSET_I_Lamp_Spect_S", 0x2400, 0x24FF),
    ("HSET_I_Lamp_Radio", 0x2400, 0x24FF),
    ("HSET_I_Shutter", 0x2800, 0x28FF),
    ("HSET_Int_Num1", 0x5000, 0x53FF),
    ("HSET_Int_Num2", 0x5400, 0x54FF),
    ("HINIT_Pix_Map_Upld", 0x3800, 0x3800),
    ("HINIT_Pix_Map_Dnld", 0x3800, 0x3800),
    ("HSET_Pix_Map_Data", 0x3000, 0x30FF),
    ("HDNLD_Pix_Map_Data", 0x3400, 0x3400),
    ("HSET_PEM_Mode", 0x6800, 0x6803),
    ("HNOP", 0x0000, 0x0000),
    ("HSTART_S", 0x0400, 0x0400),
    ("HSTART_HK", 0x0800, 0x0800),
    ("HSTOP_Readout", 0x0C00, 0x0C00),
    ("HRESYNC", 0x2000, 0x2000),
    ("HSET_Det/On", 0x4401, 0x4401),
    ("HSET_Det/Off", 0x4400, 0x4400),
    ("HSET_Shutter/On", 0x6C01, 0x6C01),
    ("HSET_Shutter/Off", 0x6C00, 0x6C00),
    ("HSET_Shutter_Status", 0x7C00, 0x7C01),
    ("HSET_FPA_Htr/On", 0x7001, 0x7001),
    ("HSET_FPA_Htr/Off", 0x7000, 0x7000),
    ("HSET_Lamp_Spect_T/On", 0x7401, 0x7401),
    ("HSET_Lamp_Spect_S/On", 0x7402, 0x7402),
    ("HSET_Lamp_Radio/On", 0x7404, 0x7404),
    ("HSET_Cal/Off", 0x7400, 0x7400),
    ("HSET_Det_Temp/On", 0x7801, 0x7801),
    ("HSET_Det_Temp/Off", 0x7800, 0x7800),
    ("HSET_Cover", 0x4800, 0x4BFF),
    ("HSET_Test_Init", 0x4C00, 0x4FFF),
];

/// Every word of a request, by trying every value.
fn words_of(request: u8) -> BTreeSet<u16> {
    let words = (0..=u16::MAX).filter_map(|value| encode(request, value).ok());
    words.collect()
}

/// The requests of each word that has any, by trying every value of each.
fn requests_of_words() -> BTreeMap<u16, Vec<u8>> {
    let mut requests: BTreeMap<u16, Vec<u8>> = BTreeMap::new();
    for request in 0..=u8::MAX {
        for word in words_of(request) {
            requests.entry(word).or_default().push(request);
        }
    }
    requests
}

fn meaning_of(requests: &[u8]) -> Meaning {
    match requests {
        [own] => Meaning::Own(*own),
        [first, others @ ..] => Meaning::Shared {
            first: *first,
            others: others.to_vec(),
        },
        [] => panic!("a word of no request"),
    }
}

#[test]
fn words_of_each_request() {
    for (request, (expected, first, last)) in (0..).zip(WORDS) {
        assert_eq!(name(request), Some(expected));
        let words: BTreeSet<u16> = (first..=last).collect();
        assert_eq!(words_of(request), words, "{expected}");
    }
    assert_eq!(name(32), None);
}

#[test]
fn a_word_is_its_code_and_its_value() {
    for (request, (name, first, _)) in (0..).zip(WORDS) {
        for value in 0..=u16::MAX {
            if let Ok(word) = encode(request, value) {
                assert_eq!(word, (first >> 10) * 1024 + value, "{name}");
            }
        }
    }
}

#[test]
fn words_that_two_requests_share() {
    let words: Vec<BTreeSet<u16>> = (0..32).map(words_of).collect();
    let mut shared = Vec::new();
    for second in 0..words.len() {
        for first in 0..second {
            let both: Vec<u16> = (&words[first] & &words[second]).into_iter().collect();
            if let (Some(from), Some(to)) = (both.first(), both.last()) {
                assert_eq!(both, (*from..=*to).collect::<Vec<u16>>());
                shared.push((first, second, *from, *to));
            }
        }
    }
    assert_eq!(
        shared,
        [
            (1, 2, 0x2400, 0x24FF),
            (1, 3, 0x2400, 0x24FF),
            (2, 3, 0x2400, 0x24FF),
            (7, 8, 0x3800, 0x3800),
            (0, 16, 0x2000, 0x2000),
        ]
    );
}

#[test]
fn every_word_is_read_as_what_has_it() {
    let requests = requests_of_words();
    let codes: BTreeSet<u16> = requests.keys().map(|word| word >> 10).collect();
    for word in 0..=u16::MAX {
        let expected = match requests.get(&word) {
            Some(requests) => Ok(Read {
                meaning: meaning_of(requests),
                value: word & 0x3FF,
            }),
            None if codes.contains(&(word >> 10)) => Err(Refusal::ValueOutOfRange),
            None => Err(Refusal::UnknownRequest),
        };
        assert_eq!(decode(word), expected, "{word:04X}");
    }
    assert_eq!((requests.len(), codes.len()), (4376, 21));
}

#[test]
fn words_with_a_shared_meaning() {
    let shared = |word| match decode(word).map(|read| read.meaning) {
        Ok(Meaning::Shared { first, others }) => Some((first, others)),
        _ => None,
    };
    for word in 0..=u16::MAX {
        let expected = match word {
            0x2000 => Some((0, vec![16])),
            0x2400..=0x24FF => Some((1, vec![2, 3])),
            0x3800 => Some((7, vec![8])),
            _ => None,
        };
        assert_eq!(shared(word), expected, "{word:04X}");
    }
}

#[test]
fn resync_is_where_its_missing_bit_puts_it() {
    assert_eq!(encode(16, 0), Ok(0b0010_0000_0000_0000));
    assert_eq!(decode(0b0001_0000_0000_0000), Err(Refusal::UnknownRequest));
}

#[test]
fn an_unknown_request_is_refused_before_its_value() {
    for request in 32..=u8::MAX {
        for value in [0, 1, 255, 1023, 1024, u16::MAX] {
            assert_eq!(encode(request, value), Err(Refusal::UnknownRequest));
        }
    }
}

#[test]
fn values_out_of_range() {
    let refused = Err(Refusal::ValueOutOfRange);
    for (request, value) in [
        (0, 256),
        (5, 1024),
        (6, 256),
        (11, 4),
        (12, 1),
        (16, 1),
        (17, 0),
        (18, 1),
        (21, 2),
        (24, 0),
        (24, 3),
        (27, 3),
        (30, 1024),
        (31, u16::MAX),
    ] {
        assert_eq!(encode(request, value), refused, "{request} {value}");
    }
    for word in [0x0001, 0x2100, 0x2500, 0x3801, 0x6804, 0x7403, 0x7408] {
        assert_eq!(decode(word).map(|read| read.value), refused, "{word:04X}");
    }
}

/// Numbers that look random (SplitMix64).
fn mixed(number: u64) -> u64 {
    let mixed = number.wrapping_mul(0x9E37_79B9_7F4A_7C15);
    let mixed = (mixed ^ mixed >> 30).wrapping_mul(0xBF58_476D_1CE4_E5B9);
    mixed ^ mixed >> 27
}

/// A map in which these pixels, counted row by row, are lighted.
fn lighted(places: impl IntoIterator<Item = usize>) -> Vec<u8> {
    let mut map = vec![0; MAP_LENGTH];
    for place in places {
        map[place / 8] |= 1 << (7 - place % 8);
    }
    map
}

fn pixel_map(map: &[u8]) -> PixelMap<'_> {
    PixelMap::of(map).expect("a pixel map")
}

/// Lighted pixels and microseconds, by visiting every row and column.
fn visited(map: &PixelMap) -> (u32, u32) {
    let (mut lighted, mut readout) = (0, 0);
    for row in 0..ROWS {
        readout += 40;
        for column in 0..COLUMNS {
            let is_lighted = map.is_lighted(row, column);
            lighted += u32::from(is_lighted);
            readout += if is_lighted { 10 } else { 1 };
        }
    }
    (lighted, readout)
}

#[test]
fn size_of_a_map() {
    assert_eq!(
        (ROWS, COLUMNS, PIXELS, MAP_LENGTH),
        (270, 438, 118_260, 14_783)
    );
}

#[test]
fn figures_of_the_documents() {
    for (count, readout) in [(0, 129_060), (17_280, 284_580), (118_260, 1_193_400)] {
        let map = lighted(0..count);
        let map = pixel_map(&map);
        assert_eq!((map.lighted(), map.readout()), (count as u32, readout));
    }
}

#[test]
fn counts_are_those_of_every_row_and_column() {
    for number in 0..40 {
        let share = 1 + number % 20;
        let is_lighted = |place: &usize| mixed(*place as u64 ^ number << 32) % 20 < share;
        let map = lighted((0..PIXELS).filter(is_lighted));
        let map = pixel_map(&map);
        assert_eq!((map.lighted(), map.readout()), visited(&map));
    }
}

#[test]
fn a_pixel_is_found_where_it_is() {
    for (row, column, byte, bits) in [
        (0, 0, 0, 0x80),
        (0, 7, 0, 0x01),
        (0, 437, 54, 0x04),
        (1, 0, 54, 0x02),
        (1, 1, 54, 0x01),
        (269, 433, 14_781, 0x01),
        (269, 434, 14_782, 0x80),
        (269, 437, 14_782, 0x10),
    ] {
        let map = lighted([row * COLUMNS + column]);
        assert_eq!(map[byte], bits, "row {row}, column {column}");
        let map = pixel_map(&map);
        assert!(map.is_lighted(row, column));
        assert_eq!((map.lighted(), map.readout()), (1, 129_069));
    }
}

/// The number of a refused map.
fn refused(map: &[u8]) -> Option<u8> {
    PixelMap::of(map).err().map(Refusal::number)
}

#[test]
fn refusals_of_maps_and_their_order() {
    for length in [0, 1, 14_782, 14_784, 2 * 14_783, 65_536 + 14_783] {
        assert_eq!(refused(&vec![0; length]), Some(41), "{length}");
        assert_eq!(refused(&vec![0xFF; length]), Some(41), "{length}");
    }
    for spare in 1..16 {
        for pixels in [0x00, 0xF0] {
            let mut map = vec![pixels; MAP_LENGTH];
            map[MAP_LENGTH - 1] |= spare;
            assert_eq!(refused(&map), Some(42), "{spare:X}");
        }
    }
    assert_eq!(refused(&vec![0xF0; MAP_LENGTH]), None);
}

/// The header of a picture as text, and the bytes after it.
fn header_and_rows(picture: &[u8]) -> (String, &[u8]) {
    let (header, rows) = picture.split_at(picture.len() - 270 * 55);
    (String::from_utf8(header.to_vec()).expect("text"), rows)
}

#[test]
fn headers_of_pictures() {
    for (count, line) in [
        (0, "# lighted 0 of 118260 pixels, readout 129060 us"),
        (
            17_280,
            "# lighted 17280 of 118260 pixels, readout 284580 us",
        ),
        (
            118_260,
            "# lighted 118260 of 118260 pixels, readout 1193400 us",
        ),
    ] {
        let picture = pixel_map(&lighted(0..count)).picture();
        let (header, _) = header_and_rows(&picture);
        assert_eq!(header, format!("P4\n{line}\n438 270\n"));
        assert!(picture.len() <= 16_384);
    }
}

#[test]
fn pixels_of_pictures() {
    for (row, column, byte, bits) in [
        (0, 0, 0, 0x80),
        (0, 437, 54, 0x04),
        (1, 0, 55, 0x80),
        (1, 10, 56, 0x20),
        (269, 437, 14_849, 0x04),
    ] {
        let picture = pixel_map(&lighted([row * COLUMNS + column])).picture();
        let (_, rows) = header_and_rows(&picture);
        let set: Vec<usize> = (0..rows.len()).filter(|&at| rows[at] != 0).collect();
        assert_eq!((set, rows[byte]), (vec![byte], bits));
    }
}

#[test]
fn a_row_of_a_picture_ends_in_two_bits_that_are_0() {
    let picture = pixel_map(&lighted(0..PIXELS)).picture();
    let (_, rows) = header_and_rows(&picture);
    for row in rows.chunks(55) {
        assert!(row[..54].iter().all(|&byte| byte == 0xFF));
        assert_eq!(row[54], 0xFC);
    }
}

#[test]
fn refusals_in_words() {
    let lines = [
        "refused 41: a pixel map has 14,783 bytes",
        "refused 42: a spare bit after the last pixel is set",
        "refused 43: no such request",
        "refused 44: the request's value is out of range",
    ];
    for (number, line) in (41..).zip(lines) {
        let refusal = Refusal::of(number).expect("a refusal");
        assert_eq!(
            (refusal.number(), refusal.in_words().as_str()),
            (number, line)
        );
    }
    for number in (0..=40).chain(45..=u8::MAX) {
        assert_eq!(Refusal::of(number), None);
    }
}
