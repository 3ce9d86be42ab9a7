//! Lists read from text, inspections and refusals in words through the wrapper.

use shabgozim::{
    inspection, listing, raw, read_list, schedule, ListRefusal, ListTextRefusal, State, TextList,
    INSPECTION_LENGTH, MOST_LIST_BYTES, MOST_WORDS, REFUSAL_LENGTH,
};

/// Document 01's example.
const PLAN: [u8; 13] = [
    0x01, 0x00, 0x0A, 0x05, 0x0C, 0xFF, 0x00, 0x0F, 0xF8, 0x01, 0x0F, 0x01, 0x10,
];
const WORDS: [u16; 6] = [0x2011, 0xA000, 0x600F, 0xE0F8, 0x8000, 0x4000];
const TICKS: [u32; 6] = [0, 1, 2, 3, 69, 227];
const LISTED: &[u8] = b"tick word\n0 2011\n1 A000\n2 600F\n3 E0F8\n69 8000\n227 4000\nend 230\n";

fn refused(number: u8, line: u32) -> ListTextRefusal {
    ListTextRefusal { number, line }
}

/// So many words at neighbouring ticks.
fn repeated(word: u16, count: usize) -> (Vec<u16>, Vec<u32>) {
    (vec![word; count], (0..count as u32).collect())
}

#[test]
fn a_listing_is_read_and_inspected() {
    let head = State::power_on();
    let listed = listing(&head, &PLAN).unwrap();
    assert_eq!(listed.as_bytes(), LISTED);
    let list = read_list(listed.as_bytes()).unwrap();
    let (words, ticks) = (WORDS.to_vec(), TICKS.to_vec());
    assert_eq!(list, TextList { words, ticks });
    let timed = list.ticks.iter().copied().zip(list.words.iter().copied());
    let schedule = schedule(&head, &PLAN).unwrap();
    assert_eq!(timed.collect::<Vec<_>>(), schedule.words);
    let inspected = inspection(&list.words, &list.ticks).unwrap();
    assert_eq!(inspected.findings, 0);
    assert!(inspected.text.is_ascii() && inspected.text.ends_with('\n'));
}

#[test]
fn a_refused_text_has_number_and_line() {
    let too_long = vec![b'\n'; MOST_LIST_BYTES + 1];
    for (text, refusal) in [
        (&b""[..], refused(91, 1)),
        (b"tick word\n0 400\n", refused(92, 2)),
        (b"tick word\n1 4000\n1 4000\n", refused(93, 3)),
        (b"tick word\nend 0\nend 0\n", refused(95, 3)),
        (&too_long, refused(96, 8193)),
    ] {
        assert_eq!(read_list(text), Err(refusal));
    }
}

#[test]
fn up_to_256_words() {
    let lines: String = (0..257).map(|tick| format!("{tick} 0000\n")).collect();
    let text = format!("tick word\n{lines}");
    assert_eq!(read_list(text.as_bytes()), Err(refused(94, 258)));
    let (text, _) = text.rsplit_once("256 ").unwrap();
    assert_eq!(read_list(text.as_bytes()).unwrap().words.len(), MOST_WORDS);
}

#[test]
fn a_list_wants_its_room() {
    let count = (WORDS.len() as u64) << 32;
    let (mut words, mut ticks) = ([0xAAAA; 8], [77; 8]);
    for (fewer, more) in [(0, 8), (5, 6), (5, 5)] {
        let answer = raw::read_list(LISTED, &mut words[..fewer], &mut ticks[..more]);
        assert_eq!(answer, count | 10);
        let answer = raw::read_list(LISTED, &mut words[..more], &mut ticks[..fewer]);
        assert_eq!(answer, count | 10);
    }
    // A fault comes before the room.
    let answer = raw::read_list(b"tick word\n0 4000\n0 4000", &mut [], &mut []);
    assert_eq!(answer, 93 | 3 << 32);
    assert_eq!((words, ticks), ([0xAAAA; 8], [77; 8]));
    let answer = raw::read_list(LISTED, &mut words, &mut ticks[..6]);
    assert_eq!(answer, count);
    assert_eq!(
        words,
        [0x2011, 0xA000, 0x600F, 0xE0F8, 0x8000, 0x4000, 0xAAAA, 0xAAAA]
    );
    assert_eq!(ticks, [0, 1, 2, 3, 69, 227, 77, 77]);
}

#[test]
fn an_inspection_wants_its_room() {
    let (words, ticks) = repeated(0xFFFF, 3);
    let text = inspection(&words, &ticks).unwrap().text;
    let packed = 3 << 8 | (text.len() as u64) << 32;
    let mut places = vec![0xAA; text.len() + 1];
    for short in [0, 1, text.len() - 1] {
        let answer = raw::inspection(&words, &ticks, &mut places[..short]);
        assert_eq!(answer, packed | 10, "{short} bytes");
        assert!(places.iter().all(|&byte| byte == 0xAA), "{short} bytes");
    }
    assert_eq!(raw::inspection(&words, &ticks, &mut places), packed);
    assert_eq!(&places[..text.len()], text.as_bytes());
    assert_eq!(places[text.len()], 0xAA);
}

#[test]
fn the_longest_lists_have_inspections() {
    // Words with much to say below their lines.
    for word in [0xFFFF, 0x8000, 0xE0FF, 0x2000, 0x1000, 0x6010] {
        let (words, ticks) = repeated(word, MOST_WORDS);
        let inspected = inspection(&words, &ticks).unwrap();
        assert!(inspected.text.len() <= INSPECTION_LENGTH);
    }
}

#[test]
fn what_is_no_list_has_no_inspection() {
    for (words, ticks) in [
        (&[0, 0][..], &[5, 5][..]),
        (&[0, 0], &[5, 4]),
        (&[0, 0], &[5]),
        (&[], &[5]),
    ] {
        assert_eq!(inspection(words, ticks), Err(ListRefusal::NoList));
        assert_eq!(raw::inspection(words, ticks, &mut []), 31);
    }
    let (words, ticks) = repeated(0, MOST_WORDS + 1);
    assert_eq!(inspection(&words, &ticks), Err(ListRefusal::NoList));
}

#[test]
fn refusals_in_words() {
    assert_eq!(
        refused(93, 4).in_words(),
        "refused 93: the tick is not above the one before (line 4)"
    );
    for number in 91..=96 {
        for line in [0, 1, 8193, u32::MAX] {
            let words = refused(number, line).in_words();
            assert!(words.starts_with(&format!("refused {number}: ")), "{words}");
            assert!(words.ends_with(&format!(" (line {line})")), "{words}");
        }
    }
    for number in [0, 10, 31, 90, 97, 255] {
        assert_eq!(refused(number, 1).in_words(), "");
    }
}

#[test]
fn a_refusal_wants_its_room() {
    let mut text = [0xAA; REFUSAL_LENGTH];
    let words = "refused 95: a line after the end (line 7)\n";
    for short in [0, 1, words.len() - 1] {
        assert_eq!(raw::list_refusal(95, 7, &mut text[..short]), 0);
    }
    assert_eq!(raw::list_refusal(90, 7, &mut text), 0);
    assert_eq!(raw::list_refusal(97, 7, &mut text), 0);
    assert_eq!(text, [0xAA; REFUSAL_LENGTH]);
    let length = raw::list_refusal(95, 7, &mut text[..words.len()]) as usize;
    assert_eq!(&text[..length], words.as_bytes());
    assert!(text[length..].iter().all(|&byte| byte == 0xAA));
}
