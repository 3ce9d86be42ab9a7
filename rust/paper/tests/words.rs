//! The 28 kinds of word.

use paper::{decode, encode, Decoded, Kind};

#[test]
fn nine_thousand_one_hundred_and_thirty_three_words_are_allowed() {
    let allowed = (0..=u16::MAX)
        .filter(|&word| matches!(decode(word), Decoded::Allowed { .. }))
        .count();
    assert_eq!(allowed, 9133);
}

#[test]
fn allowed_words_of_each_kind() {
    const COUNTS: [usize; 28] = [
        1, 1, 1, 1, 2, 2, 16, 256, 16, 256, 1024, 1024, 1024, 512, 1024, 512, 1019, 1024, 8, 32,
        32, 128, 32, 256, 16, 256, 2, 656,
    ];
    let mut found = [0; 28];
    for word in 0..=u16::MAX {
        if let Decoded::Allowed { kind, .. } = decode(word) {
            found[usize::from(kind.index())] += 1;
        }
    }
    assert_eq!(found, COUNTS);
}

#[test]
fn encoding_undoes_decoding() {
    for word in 0..=u16::MAX {
        if let Decoded::Allowed { kind, data } = decode(word) {
            assert_eq!(encode(kind.index(), data), Some(word));
        }
    }
}

#[test]
fn encoding_gives_each_allowed_word_once_and_nothing_else() {
    let mut given = vec![false; 65536];
    for kind in 0..=u8::MAX {
        for data in 0..=u16::MAX {
            if let Some(word) = encode(kind, data) {
                assert!(!given[usize::from(word)]);
                given[usize::from(word)] = true;
                let Decoded::Allowed { kind: k, data: d } = decode(word) else {
                    panic!("{word:04X} is not allowed");
                };
                assert_eq!((k.index(), d), (kind, data));
            }
        }
    }
    assert_eq!(given.iter().filter(|&&it| it).count(), 9133);
}

#[test]
fn identifiers_outside_the_table_are_unknown() {
    const KNOWN: [u16; 28] = [
        0x0000, 0x8000, 0x4000, 0xC000, 0xD800, 0x9000, 0xD000, 0x3000, 0xB000, 0x7000, 0xF000,
        0x0800, 0x2800, 0xA800, 0x6800, 0xE800, 0x1800, 0x9800, 0x5800, 0x8800, 0xC800, 0x4800,
        0x2000, 0xA000, 0x6000, 0xE000, 0x5000, 0x1000,
    ];
    for word in 0..=u16::MAX {
        let known = KNOWN.iter().position(|&first| first == word & 0xFC00);
        match (decode(word), known) {
            (Decoded::Unknown, None) => {}
            (Decoded::Allowed { kind, .. } | Decoded::OutOfRange { kind }, Some(index)) => {
                assert_eq!(usize::from(kind.index()), index)
            }
            other => panic!("{word:04X}: {other:?}"),
        }
    }
}

#[test]
fn edges_of_ranges() {
    assert_eq!(
        decode(0x1804),
        Decoded::OutOfRange {
            kind: Kind::CcdDelay
        }
    );
    assert_eq!(decode(0xC001), Decoded::OutOfRange { kind: Kind::Stop });
    assert_eq!(decode(0x1052), Decoded::OutOfRange { kind: Kind::Cover });
    assert_eq!(
        decode(0x13D1),
        Decoded::Allowed {
            kind: Kind::Cover,
            data: 0x3D1
        }
    );
    assert_eq!(decode(0x13D2), Decoded::OutOfRange { kind: Kind::Cover });
    assert_eq!(decode(0x0400), Decoded::Unknown);
    assert_eq!(decode(0x3800), Decoded::Unknown);
    assert_eq!(encode(28, 0), None);
    assert_eq!(encode(16, 4), None);
    assert_eq!(encode(16, 5), Some(0x1805));
    assert_eq!(encode(0, 0x400), None);
}
