//! The description in sections, as help and manual page show it.

use crate::description::{
    about, Prints, Subcommand, END_OF_OPTIONS, EXAMPLES, NAME, OPTIONS, STATUSES, SUBCOMMANDS,
    SUMMARY, WORDS,
};

/// A titled part of the description.
pub struct Section {
    pub title: &'static str,
    pub body: Body,
}

pub enum Body {
    Paragraphs(Vec<String>),
    /// Lines that are to be typed.
    Lines(Vec<String>),
    /// Terms, each with what it means.
    Entries(Vec<(String, String)>),
}

/// The whole description, in the order of a manual page.
pub fn sections() -> Vec<Section> {
    let subcommands = SUBCOMMANDS.iter().map(Subcommand::entry);
    let section = |title, body| Section { title, body };
    vec![
        section(
            "Name",
            Body::Paragraphs(vec![format!("{NAME} - {SUMMARY}")]),
        ),
        section("Synopsis", Body::Lines(synopsis())),
        section("Description", Body::Paragraphs(about())),
        section("Subcommands", Body::Entries(subcommands.collect())),
        section("Options", Body::Entries(options())),
        section("Exit status", Body::Entries(entries(STATUSES))),
        section("Examples", Body::Entries(entries(EXAMPLES))),
    ]
}

/// The lines of the synopsis.
pub fn synopsis() -> Vec<String> {
    let subcommands = SUBCOMMANDS
        .iter()
        .map(|subcommand| format!("{NAME} {}", subcommand.entry().0));
    let long = OPTIONS.iter().filter_map(|option| option.names.last());
    let long: Vec<&str> = long.copied().collect();
    let options = format!("{NAME} {}", long.join(" | "));
    subcommands.chain([options]).collect()
}

fn options() -> Vec<(String, String)> {
    let shown = OPTIONS
        .iter()
        .map(|option| (option.names.join(", "), option.says.into()));
    let end = entries(&[("--", END_OF_OPTIONS)]);
    shown.chain(end).collect()
}

fn entries<Term: ToString>(table: &[(Term, &str)]) -> Vec<(String, String)> {
    let entry = |(term, says): &(Term, &str)| (term.to_string(), says.to_string());
    table.iter().map(entry).collect()
}

impl Subcommand {
    fn entry(&self) -> (String, String) {
        let call = match &self.prints {
            Prints::Table(_) => self.name.into(),
            Prints::Texts(inputs) => format!("{} {}", self.name, inputs.operands),
            Prints::Pair(pair) => format!("{} {}", self.name, pair.operands.join(" ")),
            Prints::Words(_) => format!("{} {WORDS}", self.name),
            Prints::AtTick(at_tick) => {
                format!("{} {} {WORDS}", self.name, at_tick.operands.join(" "))
            }
        };
        (call, self.says.into())
    }
}
