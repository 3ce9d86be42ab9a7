//! The description as a manual page, in roff.

use crate::description::{version, NAME};
use crate::sections::{sections, Body, Section};

/// The whole description.
pub fn page() -> String {
    let title = NAME.to_uppercase();
    let version = version();
    let sections: String = sections().iter().map(roff).collect();
    format!(".TH {title} 1 \"\" \"{}\"\n{sections}", version.trim_end())
}

fn roff(section: &Section) -> String {
    let title = section.title.to_uppercase();
    let body = match &section.body {
        Body::Paragraphs(texts) => lines(texts, sentences).join(".PP\n"),
        Body::Lines(typed) => lines(typed, bold).join(".br\n"),
        Body::Entries(entries) => entries.iter().map(entry).collect(),
    };
    format!(".SH {title}\n{body}")
}

fn lines(texts: &[String], shown: fn(&str) -> String) -> Vec<String> {
    texts.iter().map(|text| shown(text) + "\n").collect()
}

fn entry((term, says): &(String, String)) -> String {
    format!(".TP\n{}\n{}\n", bold(term), sentences(says))
}

fn bold(text: &str) -> String {
    format!("\\fB{}\\fR", escaped(text))
}

/// Each sentence on a line of its own, as is usual in roff.
fn sentences(text: &str) -> String {
    escaped(text).replace(". ", ".\n")
}

/// The text as roff shows it unchanged. A line that begins with a dot would be a
/// request; `\&` stands for nothing.
fn escaped(text: &str) -> String {
    let mut shown = String::from(if text.starts_with('.') { "\\&" } else { "" });
    for character in text.chars() {
        match character {
            '\\' => shown += "\\e",
            '-' => shown += "\\-",
            '\'' => shown += "\\(aq",
            other => shown.push(other),
        }
    }
    shown
}
