//! The high-resolution head's requests and pixel map through the wrapper.

use shabgozim::{
    decode_request, encode_request, raw, CoverParameter, MapRefusal, Meaning, PemMode, PixelMap,
    Request, RequestRefusal, SharedWord, PICTURE_LENGTH, REFUSAL_LENGTH,
};

/// A request, its code, and the first and last value it allows.
type Row = (Request, u16, u16, u16);

/// The table of source document 000, section 4.2.
const TABLE: [Row; 32] = [
    (Request::HSetBias, 0b001000, 0, 255),
    (Request::HSetILampSpectT, 0b001001, 0, 255),
    (Request::HSetILampSpectS, 0b001001, 0, 255),
    (Request::HSetILampRadio, 0b001001, 0, 255),
    (Request::HSetIShutter, 0b001010, 0, 255),
    (Request::HSetIntNum1, 0b010100, 0, 1023),
    (Request::HSetIntNum2, 0b010101, 0, 255),
    (Request::HInitPixMapUpld, 0b001110, 0, 0),
    (Request::HInitPixMapDnld, 0b001110, 0, 0),
    (Request::HSetPixMapData, 0b001100, 0, 255),
    (Request::HDnldPixMapData, 0b001101, 0, 0),
    (Request::HSetPemMode, 0b011010, 0, 3),
    (Request::HNop, 0b000000, 0, 0),
    (Request::HStartS, 0b000001, 0, 0),
    (Request::HStartHk, 0b000010, 0, 0),
    (Request::HStopReadout, 0b000011, 0, 0),
    (Request::HResync, 0b001000, 0, 0),
    (Request::HSetDetOn, 0b010001, 1, 1),
    (Request::HSetDetOff, 0b010001, 0, 0),
    (Request::HSetShutterOn, 0b011011, 1, 1),
    (Request::HSetShutterOff, 0b011011, 0, 0),
    (Request::HSetShutterStatus, 0b011111, 0, 1),
    (Request::HSetFpaHtrOn, 0b011100, 1, 1),
    (Request::HSetFpaHtrOff, 0b011100, 0, 0),
    (Request::HSetLampSpectTOn, 0b011101, 1, 1),
    (Request::HSetLampSpectSOn, 0b011101, 2, 2),
    (Request::HSetLampRadioOn, 0b011101, 4, 4),
    (Request::HSetCalOff, 0b011101, 0, 0),
    (Request::HSetDetTempOn, 0b011110, 1, 1),
    (Request::HSetDetTempOff, 0b011110, 0, 0),
    (Request::HSetCover, 0b010010, 0, 1023),
    (Request::HSetTestInit, 0b010011, 0, 1023),
];

/// Lighted are the first pixels, so many as the 8 orders have.
fn eight_orders() -> PixelMap {
    let mut map = PixelMap::dark();
    for pixel in 0..17_280 {
        assert!(map.set(pixel / PixelMap::COLUMNS, pixel % PixelMap::COLUMNS, true));
    }
    map
}

fn all_lighted() -> PixelMap {
    let mut bytes = vec![0xFF; PixelMap::BYTES];
    bytes[PixelMap::BYTES - 1] = 0xF0;
    PixelMap::from_bytes(&bytes).unwrap()
}

/// What a word with this request and value means.
fn meaning(request: Request, word: u16) -> Meaning {
    match word {
        0x2000 => Meaning::Shared(SharedWord::BiasOrResync),
        0x2400..=0x24FF => Meaning::Shared(SharedWord::LampCurrent),
        0x3800 => Meaning::Shared(SharedWord::PixelMapReset),
        _ => Meaning::One(request),
    }
}

#[test]
fn requests_have_numbers_and_names() {
    for (place, (request, ..)) in TABLE.into_iter().enumerate() {
        assert_eq!(Request::ALL[place], request);
        assert_eq!(usize::from(request.number()), place);
        assert_eq!(Request::from_number(place as u8), Some(request));
        // The name has the letters of the variant.
        let letters: String = request.name().split(['_', '/']).collect();
        assert!(letters.eq_ignore_ascii_case(&format!("{request:?}")));
    }
    for number in [32, 0x80, 0xFF] {
        assert_eq!(Request::from_number(number), None);
    }
    assert_eq!(Request::HSetDetOn.name(), "HSET_Det/On");
    assert_eq!(Request::HDnldPixMapData.name(), "HDNLD_Pix_Map_Data");
}

#[test]
fn every_request_and_value_to_a_word_and_back() {
    let refused = Err(RequestRefusal::OutOfRange);
    for (request, code, first, last) in TABLE {
        for value in 0..=2047 {
            let written = encode_request(request, value);
            if !(first..=last).contains(&value) {
                assert_eq!(written, refused, "{request:?} {value}");
                continue;
            }
            let word = code * 1024 + value;
            assert_eq!(written, Ok(word), "{request:?} {value}");
            let (meaning_read, value_read) = decode_request(word).unwrap();
            assert_eq!((meaning_read, value_read), (meaning(request, word), value));
            assert!(meaning_read.requests().contains(&request), "{word:04X}");
        }
        assert_eq!(encode_request(request, u16::MAX), refused);
    }
}

#[test]
fn every_word() {
    let rows_of = |word: u16| TABLE.into_iter().filter(move |row| row.1 == word >> 10);
    for word in 0..=u16::MAX {
        let value = word & 0x3FF;
        let allows = |row: &Row| (row.2..=row.3).contains(&value);
        let requests: Vec<Request> = rows_of(word).filter(allows).map(|row| row.0).collect();
        match decode_request(word) {
            Ok((meaning, read)) => {
                assert_eq!((meaning.requests(), read), (&requests[..], value));
                let is_one = matches!(meaning, Meaning::One(_));
                assert_eq!(is_one, requests.len() == 1, "{word:04X}");
            }
            Err(RequestRefusal::OutOfRange) => {
                assert!(requests.is_empty() && rows_of(word).next().is_some());
            }
            Err(RequestRefusal::Unknown) => assert!(rows_of(word).next().is_none()),
        }
    }
}

#[test]
fn packed_requests() {
    assert_eq!(raw::h_decode(0x4401), 17 << 16 | 1);
    assert_eq!(raw::h_decode(0x2000), 0x80 << 16);
    assert_eq!(raw::h_decode(0x24FF), 0x81 << 16 | 255);
    assert_eq!(raw::h_decode(0x3800), 0x87 << 16);
    assert_eq!(raw::h_decode(0xFFFF), 43 << 24);
    assert_eq!(raw::h_decode(0x7403), 44 << 24);
    assert_eq!(raw::h_encode(16, 0), 0x2000);
    // There is no such request, whatever the value is.
    for number in [32, 0x80, 0x81, 0x87, 0xFF] {
        assert_eq!(raw::h_encode(number, 0), 43 << 24);
        assert_eq!(raw::h_encode(number, u16::MAX), 43 << 24);
    }
    assert_eq!(raw::h_encode(31, 1024), 44 << 24);
}

#[test]
fn values_have_fields() {
    for value in 0..1024 {
        let cover = CoverParameter::from_value(value);
        assert_eq!(cover.value(), value);
        assert_eq!(CoverParameter::from_value(value | 0xFC00), cover);
    }
    let cover = CoverParameter {
        steps: 127,
        sensors: false,
        wave: true,
        opens: false,
    };
    assert_eq!(cover.value(), 0b11_1111_1010);
    assert_eq!(
        encode_request(Request::HSetCover, cover.value()),
        Ok(0x4BFA)
    );
    let steps = 128;
    let too_many = CoverParameter { steps, ..cover }.value();
    let refused = Err(RequestRefusal::OutOfRange);
    assert_eq!(encode_request(Request::HSetCover, too_many), refused);
    for value in 0..4 {
        let mode = PemMode::from_value(value);
        assert_eq!(mode.value(), value);
        assert_eq!(mode.simulation, value >= 2);
        assert_eq!(mode.all_matrix, value % 2 == 1);
    }
}

#[test]
fn readout_of_the_papers_maps() {
    let map = eight_orders();
    assert_eq!(map.lighted(), 17_280);
    assert_eq!(map.readout_microseconds(), 284_580);
    let map = all_lighted();
    assert_eq!(map.lighted(), 118_260);
    assert_eq!(map.readout_microseconds(), 1_193_400);
    let map = PixelMap::dark();
    assert_eq!(map.lighted(), 0);
    assert_eq!(map.readout_microseconds(), 129_060);
}

#[test]
fn pixels_are_set_one_by_one() {
    let mut map = PixelMap::dark();
    for (row, column, byte, bit) in [
        (0, 0, 0, 0x80),
        (0, 437, 54, 0x04),
        (1, 0, 54, 0x02),
        (269, 437, 14_782, 0x10),
    ] {
        assert_eq!(map.is_lighted(row, column), Some(false));
        assert!(map.set(row, column, true));
        assert_eq!(map.is_lighted(row, column), Some(true));
        assert_eq!(map.bytes()[byte], bit);
        assert_eq!(map.lighted(), 1);
        assert!(map.set(row, column, false));
        assert_eq!(map, PixelMap::dark());
    }
}

#[test]
fn there_is_nothing_outside_of_a_map() {
    let mut map = all_lighted();
    for (row, column) in [(0, 438), (270, 0), (269, usize::MAX), (usize::MAX, 437)] {
        for lighted in [true, false] {
            assert!(!map.set(row, column, lighted));
        }
        assert_eq!(map.is_lighted(row, column), None);
    }
    assert_eq!(map, all_lighted());
}

#[test]
fn refused_maps() {
    let dark = vec![0; PixelMap::BYTES + 1];
    for length in [0, 1, PixelMap::BYTES - 1, PixelMap::BYTES + 1] {
        let refused = PixelMap::from_bytes(&dark[..length]);
        assert_eq!(refused, Err(MapRefusal::Length), "{length} bytes");
        assert_eq!(raw::h_lighted(&dark[..length]), 41 << 24);
        assert_eq!(raw::h_readout(&dark[..length]), 41 << 24);
    }
    // The length is judged first.
    let refused = PixelMap::from_bytes(&vec![0xFF; PixelMap::BYTES + 1]);
    assert_eq!(refused, Err(MapRefusal::Length));
    for bit in [1, 2, 4, 8, 0xFF] {
        let mut spare = all_lighted().bytes().to_vec();
        spare[PixelMap::BYTES - 1] |= bit;
        assert_eq!(PixelMap::from_bytes(&spare), Err(MapRefusal::SpareBit));
        assert_eq!(raw::h_lighted(&spare), 42 << 24);
        assert_eq!(raw::h_readout(&spare), 42 << 24);
    }
}

#[test]
fn a_picture_has_every_pixel() {
    // Bytes that do not repeat from row to row.
    let pattern = |place: usize| (place % 251) as u8;
    let mut bytes: Vec<u8> = (0..PixelMap::BYTES).map(pattern).collect();
    bytes[PixelMap::BYTES - 1] &= 0xF0;
    let map = PixelMap::from_bytes(&bytes).unwrap();
    let title = format!(
        "P4\n# lighted {} of 118260 pixels, readout {} us\n438 270\n",
        map.lighted(),
        map.readout_microseconds()
    );
    let picture = map.picture();
    let rows = picture.strip_prefix(title.as_bytes()).unwrap();
    assert_eq!(rows.len(), 270 * 55);
    for (row, bytes) in rows.chunks(55).enumerate() {
        for column in 0..440 {
            let black = bytes[column / 8] >> (7 - column % 8) & 1 == 1;
            let lighted = map.is_lighted(row, column).unwrap_or(false);
            assert_eq!(black, lighted, "row {row}, column {column}");
        }
    }
}

#[test]
fn a_picture_wants_its_room() {
    let map = eight_orders();
    let picture = map.picture();
    let length = (picture.len() as u64) << 32;
    let mut text = vec![0xAA; PICTURE_LENGTH];
    for short in [0, 1, picture.len() - 1] {
        let answer = raw::h_picture(map.bytes(), &mut text[..short]);
        assert_eq!(answer, length | 10, "{short} bytes");
    }
    // A fault of the map comes before the room.
    let mut spare = vec![0; PixelMap::BYTES];
    spare[PixelMap::BYTES - 1] = 1;
    assert_eq!(raw::h_picture(&spare, &mut []), 42);
    assert_eq!(raw::h_picture(&spare, &mut text), 42);
    assert_eq!(raw::h_picture(&spare[1..], &mut []), 41);
    assert_eq!(raw::h_picture(&[], &mut text), 41);
    assert!(text.iter().all(|&byte| byte == 0xAA));
    assert_eq!(raw::h_picture(map.bytes(), &mut text), length);
    assert_eq!(text[..picture.len()], picture);
    assert!(text[picture.len()..].iter().all(|&byte| byte == 0xAA));
    let room = &mut text[..picture.len()];
    assert_eq!(raw::h_picture(map.bytes(), room), length);
}

#[test]
fn refusals_in_words() {
    let told = |number: u8, words: &str| format!("refused {number}: {words}");
    let (length, spare_bit) = (MapRefusal::Length, MapRefusal::SpareBit);
    let words = told(41, "a pixel map has 14,783 bytes");
    assert_eq!((length.number(), length.in_words()), (41, words));
    let words = told(42, "a spare bit after the last pixel is set");
    assert_eq!((spare_bit.number(), spare_bit.in_words()), (42, words));
    let (unknown, range) = (RequestRefusal::Unknown, RequestRefusal::OutOfRange);
    let words = told(43, "no such request");
    assert_eq!((unknown.number(), unknown.in_words()), (43, words));
    let words = told(44, "the request's value is out of range");
    assert_eq!((range.number(), range.in_words()), (44, words));
}

#[test]
fn a_refusal_wants_its_room() {
    let mut text = [0xAA; REFUSAL_LENGTH];
    let words = "refused 43: no such request\n";
    for short in [0, 1, words.len() - 1] {
        assert_eq!(raw::h_refusal(43, &mut text[..short]), 0);
    }
    for number in [0, 40, 45, 255] {
        assert_eq!(raw::h_refusal(number, &mut text), 0);
    }
    assert_eq!(text, [0xAA; REFUSAL_LENGTH]);
    let length = raw::h_refusal(43, &mut text[..words.len()]) as usize;
    assert_eq!(&text[..length], words.as_bytes());
    assert!(text[length..].iter().all(|&byte| byte == 0xAA));
}
