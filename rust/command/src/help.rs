//! The description as plain text.

use crate::sections::{sections, synopsis, Body};

const WIDTH: usize = 79;
const INDENT: &str = "  ";
const ENTRY_INDENT: &str = "      ";

/// The whole description.
pub fn page() -> String {
    let sections = sections();
    let pages = sections
        .iter()
        .map(|section| format!("{}:\n{}", section.title, plain(&section.body)));
    pages.collect::<Vec<_>>().join("\n")
}

/// The synopsis alone, without a newline at its end.
pub fn usage() -> String {
    format!("usage: {}", synopsis().join("\n       "))
}

fn plain(body: &Body) -> String {
    match body {
        Body::Paragraphs(texts) => {
            let texts = texts.iter().map(|text| wrapped(text, INDENT));
            texts.collect::<Vec<_>>().join("\n")
        }
        Body::Lines(lines) => lines.iter().map(|line| indented(line)).collect(),
        Body::Entries(entries) => entries
            .iter()
            .map(|(term, says)| indented(term) + &wrapped(says, ENTRY_INDENT))
            .collect(),
    }
}

fn indented(line: &str) -> String {
    format!("{INDENT}{line}\n")
}

/// The words in indented lines of at most `WIDTH` columns.
fn wrapped(text: &str, indent: &str) -> String {
    let mut done = String::new();
    let mut line = String::from(indent);
    for word in text.split_whitespace() {
        if line.len() + 1 + word.len() > WIDTH {
            done += &line;
            done += "\n";
            line = indent.into();
        }
        if line.len() > indent.len() {
            line += " ";
        }
        line += word;
    }
    format!("{done}{line}\n")
}
