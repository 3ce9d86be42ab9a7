//! The lists of two operators merged through the wrapper.

use shabgozim::{
    entry, merge, merge_texts, raw, read_list, tick_and_word, ListTextRefusal, MergeRefusal,
    MergeTextsRefusal, Merged, Operator, Rest, MERGED_TEXT_LENGTH, MOST_LIST_BYTES,
};

const LAST_TICK: u64 = (1 << 48) - 1;
const UNTOUCHED: u64 = 0xAAAA_AAAA_AAAA_AAAA;

/// Entries at these ticks. The words fall, so that entries are not ordered by
/// them.
fn at(ticks: &[u64]) -> Vec<u64> {
    let words = (0..=u16::MAX).rev();
    let timed = ticks.iter().zip(words);
    timed
        .map(|(&tick, word)| entry(tick, word).unwrap())
        .collect()
}

/// Merges into a buffer with places to spare, and sees that those are left.
fn merged<'a>(ccd: &'a [u64], infrared: &'a [u64]) -> (Vec<u64>, Rest<'a>) {
    let mut room = vec![UNTOUCHED; ccd.len() + infrared.len() + 2];
    let Merged { count, rest } = merge(ccd, infrared, &mut room).expect("no refusal");
    assert!(room[count..].iter().all(|&place| place == UNTOUCHED));
    room.truncate(count);
    (room, rest)
}

/// Merges into so many places and sees that a refusal writes nothing.
fn refused(ccd: &[u64], infrared: &[u64], places: usize) -> MergeRefusal {
    let mut room = vec![UNTOUCHED; places];
    let refusal = merge(ccd, infrared, &mut room).expect_err("a refusal");
    assert_eq!(room, vec![UNTOUCHED; places]);
    // Its rest is the empty end of the infrared list.
    let answer = raw::Merged {
        number: refusal.number().into(),
        rest_of: 1,
        count: 0,
        rest_start: infrared.len(),
    };
    assert_eq!(raw::merge(ccd, infrared, &mut room), answer);
    refusal
}

/// Those of ticks 0 to 5 whose bits are set.
fn ticks_of(bits: u64) -> Vec<u64> {
    (0..6).filter(|tick| bits >> tick & 1 == 1).collect()
}

/// A list as text, with words 0000.
fn text(ticks: impl IntoIterator<Item = u64>) -> String {
    let lines: String = ticks
        .into_iter()
        .map(|tick| format!("{tick} 0000\n"))
        .collect();
    format!("tick word\n{lines}")
}

fn texts_refused(ccd: &[u8], infrared: &[u8]) -> MergeTextsRefusal {
    merge_texts(ccd, infrared).expect_err("a refusal")
}

fn no_list(of: Operator, number: u8, line: u32) -> MergeTextsRefusal {
    MergeTextsRefusal::NoList(of, ListTextRefusal { number, line })
}

#[test]
fn an_entry_has_a_tick_and_a_word() {
    for (tick, word, number) in [
        (0, 0, 0),
        (0, 0xFFFF, 0xFFFF),
        (1, 0, 0x1_0000),
        (LAST_TICK, 0, !0xFFFF),
        (LAST_TICK, 0xFFFF, u64::MAX),
    ] {
        assert_eq!(entry(tick, word), Some(number));
        assert_eq!(tick_and_word(number), (tick, word));
    }
    for tick in [LAST_TICK + 1, u64::MAX] {
        assert_eq!(entry(tick, 0), None);
    }
}

#[test]
fn all_small_lists() {
    for (first, second) in (0..64).flat_map(|first| (0..64).map(move |second| (first, second))) {
        let (ccd, infrared) = (at(&ticks_of(first)), at(&ticks_of(second)));
        if first & second != 0 {
            assert_eq!(refused(&ccd, &infrared, 12), MergeRefusal::SameTick);
            continue;
        }
        let (part, rest) = merged(&ccd, &infrared);
        // One of the two lists has ended: in the merged part are all of one, and
        // of the other those before its last.
        let mut whole = [&ccd[..], &infrared].concat();
        whole.sort_by_key(|&entry| tick_and_word(entry).0);
        assert_eq!([&part[..], rest.entries()].concat(), whole);
        let count = match (ccd.last(), infrared.last()) {
            (Some(ccd), Some(infrared)) => {
                whole.iter().position(|entry| entry == ccd.min(infrared))
            }
            _ => None,
        };
        assert_eq!(part.len(), count.map_or(0, |place| place + 1));
        let ccd_is_left = ccd.last() > infrared.last();
        assert_eq!(rest.operator() == Operator::Ccd, ccd_is_left);
    }
}

#[test]
fn the_rest_is_a_part_of_the_given_list() {
    let (ccd, infrared) = (at(&[1, 4, 6, 9]), at(&[2, 3, 5]));
    let (part, rest) = merged(&ccd, &infrared);
    assert_eq!(
        part,
        [ccd[0], infrared[0], infrared[1], ccd[1], infrared[2]]
    );
    assert_eq!(rest, Rest::Ccd(&ccd[2..]));
    assert_eq!(rest.entries().as_ptr(), ccd[2..].as_ptr());
    let (_, rest) = merged(&infrared, &ccd);
    assert_eq!(rest, Rest::Infrared(&ccd[2..]));
    assert_eq!(rest.entries().as_ptr(), ccd[2..].as_ptr());
}

#[test]
fn empty_lists() {
    let list = at(&[0, LAST_TICK]);
    let none = Vec::new();
    // No place is needed.
    for room in [&mut [][..], &mut [UNTOUCHED]] {
        for (ccd, infrared, rest) in [
            (&[][..], &[][..], Rest::Infrared(&[])),
            (&list, &[], Rest::Ccd(&list)),
            (&[], &list, Rest::Infrared(&list)),
        ] {
            let empty = Ok(Merged { count: 0, rest });
            assert_eq!(merge(ccd, infrared, room), empty);
            assert_eq!(merged(ccd, infrared).0, none);
        }
        assert!(room.iter().all(|&place| place == UNTOUCHED));
    }
}

#[test]
fn limits_of_ticks_and_words() {
    let entries = |timed: [(u64, u16); 2]| timed.map(|(tick, word)| entry(tick, word).unwrap());
    // A word does not reach into the tick.
    let ccd = entries([(0, 0xFFFF), (LAST_TICK - 1, 0xFFFF)]);
    let infrared = entries([(1, 0), (LAST_TICK, 0xFFFF)]);
    let (part, rest) = merged(&ccd, &infrared);
    assert_eq!(part, [ccd[0], infrared[0], ccd[1]]);
    assert_eq!(rest, Rest::Infrared(&infrared[1..]));
    // The last tick is in both, with other words.
    let same = entries([(3, 0), (LAST_TICK, 0)]);
    assert_eq!(refused(&same, &infrared, 4), MergeRefusal::SameTick);
    // The word rises, the tick does not.
    let equal = entries([(LAST_TICK, 0), (LAST_TICK, 0xFFFF)]);
    assert_eq!(refused(&equal, &[], 4), MergeRefusal::NotRising);
    assert_eq!(refused(&[], &equal, 4), MergeRefusal::NotRising);
}

#[test]
fn long_lists() {
    let even: Vec<u64> = (0..5000).map(|place| place * 2).collect();
    let odd: Vec<u64> = even.iter().map(|tick| tick + 1).collect();
    let (ccd, infrared) = (at(&odd), at(&even));
    let (part, rest) = merged(&ccd, &infrared);
    assert_eq!((part.len(), rest), (9999, Rest::Ccd(&ccd[4999..])));
    let ticks = part.iter().map(|&entry| tick_and_word(entry).0);
    assert!(ticks.eq(0..9999));
}

#[test]
fn ticks_must_rise() {
    for falling in [
        &[4, 4][..],
        &[5, 4],
        &[0, 1, 2, 2],
        &[0, 9, 3, 10],
        &[1, 0, 7],
    ] {
        let falling = at(falling);
        for other in [&[][..], &[0], &[100, 200]] {
            let other = at(other);
            assert_eq!(refused(&falling, &other, 9), MergeRefusal::NotRising);
            assert_eq!(refused(&other, &falling, 9), MergeRefusal::NotRising);
        }
    }
}

#[test]
fn refusals_come_in_order() {
    let falling = at(&[7, 7]);
    let (ccd, infrared) = (at(&[1, 7]), at(&[2, 7]));
    // All three, the last two, the last.
    assert_eq!(refused(&falling, &infrared, 0), MergeRefusal::NotRising);
    assert_eq!(refused(&ccd, &falling, 0), MergeRefusal::NotRising);
    assert_eq!(refused(&ccd, &infrared, 0), MergeRefusal::SameTick);
    assert_eq!(refused(&ccd, &infrared[..1], 0), MergeRefusal::NoRoom);
}

#[test]
fn room_for_the_merged_part_alone() {
    // Four entries are merged, the rest needs no place.
    let (ccd, infrared) = (at(&[0, 5, 6, 7, 8, 9]), at(&[1, 2, 4]));
    for places in 0..4 {
        assert_eq!(refused(&ccd, &infrared, places), MergeRefusal::NoRoom);
        assert_eq!(refused(&infrared, &ccd, places), MergeRefusal::NoRoom);
    }
    let mut room = [UNTOUCHED; 5];
    let rest = Rest::Ccd(&ccd[1..]);
    let done = Ok(Merged { count: 4, rest });
    assert_eq!(merge(&ccd, &infrared, &mut room[..4]), done);
    let part = [ccd[0], infrared[0], infrared[1], infrared[2], UNTOUCHED];
    assert_eq!(room, part);
}

#[test]
fn refusals_in_words() {
    for (refusal, number, rule) in [
        (
            MergeRefusal::NotRising,
            52,
            "the ticks of a list do not rise",
        ),
        (MergeRefusal::SameTick, 53, "the same tick in both lists"),
        (MergeRefusal::NoRoom, 54, "no room for the merged part"),
    ] {
        assert_eq!(refusal.number(), number);
        assert_eq!(refusal.in_words(), format!("refused {number}: {rule}"));
    }
    let refusal = MergeTextsRefusal::SameTick;
    assert_eq!(refusal.number(), 53);
    assert_eq!(refusal.in_words(), MergeRefusal::SameTick.in_words());
    let refusal = no_list(Operator::Infrared, 93, 4);
    assert_eq!(refusal.number(), 93);
    let words = "refused 93: the tick is not above the one before (line 4)";
    assert_eq!(refusal.in_words(), words);
}

#[test]
fn texts_are_merged_whole() {
    let ccd = b"tick word\n0 2864\n4 a832\n300 9832";
    let infrared = b"tick word\n1 2011\n2 A000\n3 600F\n6 E0F8\n4294967294 08C8\nend 4294967295\n";
    let merged = merge_texts(ccd, infrared).unwrap();
    // Letters of either case are written in one, and there is no end.
    let lines = "0 2864\n1 2011\n2 A000\n3 600F\n4 A832\n6 E0F8\n300 9832\n4294967294 08C8\n";
    assert_eq!(merged, format!("tick word\n{lines}"));
    assert_eq!(merge_texts(infrared, ccd).unwrap(), merged);
    assert_eq!(read_list(merged.as_bytes()).unwrap().words.len(), 8);
}

#[test]
fn empty_texts_are_merged() {
    let empty = b"tick word\nend 0\n";
    assert_eq!(merge_texts(empty, b"tick word").unwrap(), "tick word\n");
    let list = text([3, 5]);
    assert_eq!(merge_texts(empty, list.as_bytes()).unwrap(), list);
    assert_eq!(merge_texts(list.as_bytes(), empty).unwrap(), list);
}

#[test]
fn the_longest_texts_are_merged() {
    // 256 words each, with ticks of ten digits.
    let last = u64::from(u32::MAX);
    let ccd = text((0..256).map(|place| last - 511 + 2 * place));
    let infrared = text((0..256).map(|place| last - 510 + 2 * place));
    let merged = merge_texts(ccd.as_bytes(), infrared.as_bytes()).unwrap();
    assert_eq!(merged, text(last - 511..=last));
    assert!((MOST_LIST_BYTES..MERGED_TEXT_LENGTH).contains(&merged.len()));
}

#[test]
fn a_text_that_is_no_list() {
    let good = b"tick word\n7 0000\n";
    let many = text(0..257);
    let too_long = vec![b'\n'; MOST_LIST_BYTES + 1];
    for (bad, number, line) in [
        (&b""[..], 91, 1),
        (b"tick word\n0 400\n", 92, 2),
        (b"tick word\n7 0000\n7 0000\n", 93, 3),
        (many.as_bytes(), 94, 258),
        (b"tick word\nend 0\nend 0\n", 95, 3),
        (&too_long, 96, 8193),
    ] {
        let (ccd, infrared) = (Operator::Ccd, Operator::Infrared);
        assert_eq!(texts_refused(bad, good), no_list(ccd, number, line));
        assert_eq!(texts_refused(good, bad), no_list(infrared, number, line));
        // The CCD operator's is judged first.
        assert_eq!(texts_refused(bad, &too_long), no_list(ccd, number, line));
        assert_eq!(texts_refused(bad, b"x"), no_list(ccd, number, line));
    }
}

#[test]
fn the_same_tick_in_both_texts() {
    let (ccd, infrared) = (text([1, 7]), text([2, 7, 9]));
    let refusal = texts_refused(ccd.as_bytes(), infrared.as_bytes());
    assert_eq!(refusal, MergeTextsRefusal::SameTick);
    // What is no list comes first.
    let faulty = infrared + "9 0000\n";
    let refusal = texts_refused(ccd.as_bytes(), faulty.as_bytes());
    assert_eq!(refusal, no_list(Operator::Infrared, 93, 5));
}

#[test]
fn a_merged_text_wants_its_room() {
    let (ccd, infrared) = (text([0, 10]), text([5]));
    let (ccd, infrared) = (ccd.as_bytes(), infrared.as_bytes());
    let merged = merge_texts(ccd, infrared).unwrap();
    let length = (merged.len() as u64) << 32;
    let mut places = vec![0xAA; merged.len() + 1];
    for short in [0, 1, merged.len() - 1] {
        let answer = raw::merge_texts(ccd, infrared, &mut places[..short]);
        assert_eq!(answer, length | 10, "{short} bytes");
        // Every other refusal comes before the room.
        assert_eq!(raw::merge_texts(ccd, ccd, &mut places[..short]), 53);
        let answer = raw::merge_texts(ccd, b"x", &mut places[..short]);
        assert_eq!(answer, 91 | 1 << 8 | 1 << 32);
        let answer = raw::merge_texts(b"x", ccd, &mut places[..short]);
        assert_eq!(answer, 91 | 1 << 32);
    }
    assert!(places.iter().all(|&byte| byte == 0xAA));
    assert_eq!(raw::merge_texts(ccd, infrared, &mut places), length);
    assert_eq!(&places[..merged.len()], merged.as_bytes());
    assert_eq!(places[merged.len()], 0xAA);
}
