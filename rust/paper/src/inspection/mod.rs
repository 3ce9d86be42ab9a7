//! The inspection of a list: what each word means and what a head makes of
//! it, from power-on, laid out for reading.

mod meaning;
mod notes;
mod step;

use crate::list::{is_list, NO_LIST};
use crate::report::groups::groups;
use crate::state::{power_on, State};
use crate::words::Kind;
use notes::{notes, received};
use step::{steps, Step};

const TITLES: &str = "line        tick  word  outcome     kind         \
                      what its data mean, and what the head does";
/// Where what stands below a word begins.
const INDENT: &str = "                                    ";

/// A list inspected.
#[derive(Clone, Debug, PartialEq, Eq)]
pub struct Inspection {
    pub text: String,
    /// Ignored words, and exposures with an incomplete mirror set or begun
    /// while something moves.
    pub findings: usize,
}

/// Gives the words to a head at power-on, each at its tick, and tells what
/// comes of them. Refused with 31 where they are no list.
pub fn inspection(words: &[u16], ticks: &[u32]) -> Result<Inspection, u16> {
    if !is_list(words, ticks) {
        return Err(NO_LIST);
    }
    let (steps, head) = steps(words, ticks);
    let counts = Counts::of(&steps);
    let text = [
        format!("{TITLES}\n"),
        steps.iter().map(lines).collect(),
        about_set(&head),
        about_settings(&head),
        counts.line(),
    ];
    Ok(Inspection {
        text: text.concat(),
        findings: counts.findings(),
    })
}

/// The line of a word, and what stands below it.
fn lines(step: &Step) -> String {
    let Step {
        line, tick, word, ..
    } = step;
    let outcome = step.outcome_text();
    let kind = step.kind().map_or("unknown", Kind::name);
    let meaning = meaning::meaning(step);
    let first = format!("{line:>4}  {tick:>10}  {word:04X}  {outcome:10}  {kind:11}  {meaning}\n");
    let below = notes(step).into_iter();
    let below = below.map(|note| format!("{INDENT}{note}\n"));
    first + &below.collect::<String>()
}

/// A set that the last word left begun.
fn about_set(head: &State) -> String {
    match received(&head.mirror_set) {
        Some(words) => format!("MIRROR SET LEFT INCOMPLETE; received: {words}\n"),
        None => String::new(),
    }
}

fn about_settings(head: &State) -> String {
    let groups = groups(&head.settings, &power_on().settings);
    format!("\nsettings at the end; * marks what is new since power-on\n{groups}")
}

struct Counts {
    words: usize,
    ignored: usize,
    exposures: usize,
    /// Exposures with a mirror set begun.
    incomplete: usize,
    /// Exposures begun while something moved.
    moving: usize,
}

impl Counts {
    fn of(steps: &[Step]) -> Counts {
        let count = |is: fn(&Step) -> bool| steps.iter().filter(|step| is(step)).count();
        Counts {
            words: steps.len(),
            ignored: count(|step| step.cause().is_some()),
            exposures: count(Step::is_exposure),
            incomplete: count(|step| step.is_exposure() && step.before.mirror_set.received > 0),
            moving: count(|step| step.is_exposure() && !step.before.at_rest()),
        }
    }

    fn findings(&self) -> usize {
        self.ignored + self.incomplete + self.moving
    }

    fn line(&self) -> String {
        let Counts {
            words,
            ignored,
            exposures,
            incomplete,
            moving,
        } = self;
        format!(
            "words {words}, ignored {ignored}, exposures {exposures}, \
             with an incomplete mirror set {incomplete}, while something moved {moving}\n"
        )
    }
}
