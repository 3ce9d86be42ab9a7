//! Lists read from text.

use paper::{read_list, TextList, TextRefusal};

const EXAMPLE: &str = "tick word\n0 2011\n1 A000\n2 600F\n3 E0F8\n69 8000\n227 4000\nend 230\n";

fn list(timed: &[(u32, u16)]) -> TextList {
    let (ticks, words) = timed.iter().copied().unzip();
    TextList { words, ticks }
}

fn read(text: &str) -> Result<TextList, (u16, usize)> {
    let refused = |refusal: TextRefusal| (refusal.number, refusal.line);
    read_list(text.as_bytes()).map_err(refused)
}

/// The title, and these lines.
fn after_title(lines: &str) -> Result<TextList, (u16, usize)> {
    read(&format!("tick word\n{lines}"))
}

/// The title, and so many words NOP at neighbouring ticks.
fn nops(count: usize) -> String {
    let lines = (0..count).map(|tick| format!("{tick} 0000\n"));
    format!("tick word\n{}", lines.collect::<String>())
}

#[test]
fn the_example() {
    let words = [
        (0, 0x2011),
        (1, 0xA000),
        (2, 0x600F),
        (3, 0xE0F8),
        (69, 0x8000),
        (227, 0x4000),
    ];
    assert_eq!(read(EXAMPLE), Ok(list(&words)));
    assert_eq!(read(EXAMPLE.trim_end()), Ok(list(&words)));
    let without_end = EXAMPLE.trim_end_matches("end 230\n");
    assert_eq!(read(without_end), Ok(list(&words)));
    assert_eq!(read(&EXAMPLE.replace("E0F8", "e0f8")), Ok(list(&words)));
}

#[test]
fn titles() {
    for text in [
        "tick word",
        "tick word\n",
        "tick word\nend 0",
        "tick word\nend 7\n",
    ] {
        assert_eq!(read(text), Ok(list(&[])), "{text:?}");
    }
    for text in [
        "",
        "\n",
        "tick",
        "tick  word\n",
        "tick word \n",
        "tick word\r\n",
        "Tick word\n",
        "0 4000\n",
        "\ntick word\n",
    ] {
        assert_eq!(read(text), Err((91, 1)), "{text:?}");
    }
}

#[test]
fn words_of_either_case() {
    let words = [(0, 0xABCD), (9, 0xEF01), (10, 0xABEF)];
    let lines = "0 abcd\n9 EF01\n10 aBEf\n";
    assert_eq!(after_title(lines), Ok(list(&words)));
}

#[test]
fn ticks_below_2_to_32() {
    for tick in [0, 1, 9, 10, 99, 100, 999_999_999, 1_000_000_000, u32::MAX] {
        let read = after_title(&format!("{tick} 4000\n"));
        assert_eq!(read, Ok(list(&[(tick, 0x4000)])));
        let end = after_title(&format!("end {tick}\n"));
        assert_eq!(end, Ok(list(&[])));
    }
    for tick in [
        "4294967296",
        "10000000000",
        "99999999999999999999",
        "00",
        "01",
        "+1",
        "-1",
        "",
    ] {
        assert_eq!(
            after_title(&format!("{tick} 4000\n")),
            Err((92, 2)),
            "{tick}"
        );
        assert_eq!(
            after_title(&format!("end {tick}\n")),
            Err((92, 2)),
            "{tick}"
        );
    }
}

#[test]
fn lines_that_are_neither() {
    for line in [
        "",
        " ",
        "0",
        "0 ",
        "0 400",
        "0 40000",
        "0  4000",
        " 0 4000",
        "0 4000 ",
        "0\t4000",
        "0 4000\r",
        "0 +400",
        "0 400G",
        "end",
        "end ",
        "end  1",
        "end 1 ",
        "End 1",
        "0x1 4000",
        "0 4000 # hk",
        "\u{661} 4000",
        "0 4000\0",
    ] {
        assert_eq!(after_title(&format!("{line}\n")), Err((92, 2)), "{line:?}");
    }
    assert_eq!(after_title("0 4000\n\n"), Err((92, 3)));
    assert_eq!(
        read_list(b"tick word\n0 40\xFF0\n").map_err(|refusal| refusal.number),
        Err(92)
    );
}

#[test]
fn ticks_rise() {
    assert_eq!(after_title("5 0000\n5 0000\n"), Err((93, 3)));
    assert_eq!(after_title("5 0000\n4 0000\n"), Err((93, 3)));
    assert_eq!(after_title("5 0000\n6 0000\nend 6\n"), Err((93, 4)));
    assert_eq!(after_title("5 0000\nend 0\n"), Err((93, 3)));
    assert_eq!(
        after_title("4294967295 0000\nend 4294967295\n"),
        Err((93, 3))
    );
}

#[test]
fn up_to_256_words() {
    assert_eq!(read(&nops(256)).map(|list| list.words.len()), Ok(256));
    assert_eq!(read(&nops(257)), Err((94, 258)));
    let falling = nops(256) + "255 0000\n";
    assert_eq!(read(&falling), Err((93, 258)));
    assert_eq!(
        read(&(nops(256) + "end 256\n")).map(|list| list.words.len()),
        Ok(256)
    );
}

#[test]
fn nothing_follows_the_end() {
    for line in ["4 4000", "end 4", "nonsense", ""] {
        let text = format!("0 4000\nend 3\n{line}\n");
        assert_eq!(after_title(&text), Err((95, 4)), "{line:?}");
    }
}

#[test]
fn up_to_8192_bytes() {
    let mut text = nops(10).into_bytes();
    text.resize(8192, b'x');
    let number = |text: &[u8]| read_list(text).map_err(|refusal| (refusal.number, refusal.line));
    assert_eq!(number(&text), Err((92, 12)));
    text.push(b'x');
    assert_eq!(number(&text), Err((96, 12)));
    // A newline stands in the line that it ends.
    text[8192] = b'\n';
    assert_eq!(number(&text), Err((96, 12)));
    text[8191] = b'\n';
    assert_eq!(number(&text), Err((96, 13)));
    text.extend([b'\n'; 9]);
    assert_eq!(number(&text), Err((96, 13)));
}

#[test]
fn in_words() {
    let words = |number, line| TextRefusal { number, line }.in_words();
    assert_eq!(
        words(91, 1),
        "refused 91: the first line is not \"tick word\" (line 1)"
    );
    assert_eq!(words(92, 3), "refused 92: not a tick and a word (line 3)");
    assert_eq!(
        words(93, 4),
        "refused 93: the tick is not above the one before (line 4)"
    );
    assert_eq!(words(94, 258), "refused 94: more than 256 words (line 258)");
    assert_eq!(words(95, 9), "refused 95: a line after the end (line 9)");
    assert_eq!(words(96, 1), "refused 96: more than 8,192 bytes (line 1)");
    for number in [0, 10, 31, 90, 97, 255] {
        assert_eq!(words(number, 1), "");
    }
}
