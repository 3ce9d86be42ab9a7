//! The form of written texts, and where two of them differ.

use crate::buffer::Buffer;

/// No line of a text is longer.
const MOST_COLUMNS: usize = 100;

/// The text of an answer with the length in its upper half; nothing for a
/// refusal.
pub fn written(answer: u64, text: &Buffer<u8>) -> &[u8] {
    let length = match answer as u8 {
        0 => (answer >> 32) as usize,
        _ => 0,
    };
    let places = text.values();
    &places[..length.min(places.len())]
}

pub fn is_well_formed(text: &[u8]) -> bool {
    badly_formed(text).is_none()
}

/// A line that is too long or ends in a space.
pub fn badly_formed(text: &[u8]) -> Option<String> {
    badly_formed_within(text, MOST_COLUMNS)
}

/// A line that has more columns than these or ends in a space.
pub fn badly_formed_within(text: &[u8], columns: usize) -> Option<String> {
    let mut lines = text.split(|&byte| byte == b'\n');
    let line = lines.find(|line| line.len() > columns || line.ends_with(b" "))?;
    Some(format!("form: |{}|", as_text(line)))
}

/// How two packed answers differ; `upper` says what the upper half has.
pub fn answers_differ(answer: u64, expected: u64, upper: &str) -> Option<String> {
    let text = |answer: u64| {
        let (number, between) = (answer as u8, answer as u32 >> 8);
        format!(
            "number {number}, bits 8-31 {between}, {upper} {}",
            answer >> 32
        )
    };
    let (library, paper) = (text(answer), text(expected));
    (answer != expected).then(|| format!("answer: library {library}, paper {paper}"))
}

/// The first line that differs.
pub fn lines_differ(library: &[u8], paper: &[u8]) -> Option<String> {
    let (library, paper) = (as_text(library), as_text(paper));
    let (mut lines, mut expected) = (library.split('\n'), paper.split('\n'));
    (1..)
        .map_while(|number| match (lines.next(), expected.next()) {
            (None, None) => None,
            (line, expected) => Some((number, line, expected)),
        })
        .find(|(_, line, expected)| line != expected)
        .map(|(number, line, expected)| {
            let (line, expected) = (shown(line), shown(expected));
            format!("line {number}\nlibrary {line}\npaper   {expected}")
        })
}

fn shown(line: Option<&str>) -> String {
    line.map_or("nothing".into(), |line| format!("|{line}|"))
}

fn as_text(bytes: &[u8]) -> String {
    String::from_utf8_lossy(bytes).into_owned()
}
