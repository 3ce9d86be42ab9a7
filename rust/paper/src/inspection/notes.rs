//! What stands below the line of a word: why it was ignored or what the head
//! does, and what is to be looked at.

use super::step::Step;
use crate::head::{Cause, Outcome};
use crate::report::layout::seconds;
use crate::report::lines::{mirror_time, pair_text};
use crate::state::{MirrorSet, TASK_ACQUISITION, TASK_HOUSEKEEPING};
use crate::words::Kind;

pub fn notes(step: &Step) -> Vec<String> {
    let mut notes = Vec::new();
    match step.outcome {
        Outcome::Ignored(cause) => notes.push(why_ignored(step, cause)),
        Outcome::Taken(_) => notes.extend(what_is_done(step)),
    }
    notes.extend(about_set(step));
    if step.is_exposure() {
        notes.extend(about_motions(step));
    }
    notes
}

fn why_ignored(step: &Step, cause: Cause) -> String {
    let (busy, cover) = (step.before.busy, step.before.cover_motion);
    match cause {
        Cause::WrongTime if busy > 0 => {
            format!("the head is busy for {busy} ticks more and takes only STOP")
        }
        Cause::WrongTime => format!("the cover moves for {cover} ticks more and takes no COVER"),
        Cause::UnknownIdentifier => String::from("no kind has this identifier"),
        Cause::DataOutOfRange => String::from("these data are out of the kind's range"),
        Cause::OutOfTurn => String::from("a mirror word out of turn"),
        Cause::StateOutOfRange => String::from("the state is out of range"),
    }
}

/// What a taken word does besides what its data say.
fn what_is_done(step: &Step) -> Option<String> {
    let settings = &step.after.settings;
    match step.kind()? {
        Kind::VdetcomL => Some(format!("VDETCOM {:>4}", settings.vdetcom)),
        Kind::VdetadjL => Some(format!("VDETADJ {:>4}", settings.vdetadj)),
        Kind::CosL => {
            let pair = pair_text(settings.sine, settings.cosine);
            Some(format!("mirror to {pair}; it moves for {}", mirror_time()))
        }
        Kind::Switch if settings.switch == 0 => {
            Some(format!("the mirror moves for {}", mirror_time()))
        }
        Kind::Cover => {
            let ticks = step.after.cover_motion;
            let time = seconds(ticks.into());
            Some(format!("the cover moves for {ticks} ticks, {time:>5} s"))
        }
        Kind::Stop => what_is_stopped(step),
        _ => None,
    }
}

fn what_is_stopped(step: &Step) -> Option<String> {
    let task = match step.before.task {
        TASK_ACQUISITION => "the acquisition",
        TASK_HOUSEKEEPING => "housekeeping",
        _ => return None,
    };
    let ticks = step.before.busy;
    Some(format!("{task} ends {ticks} ticks early, without blocks"))
}

/// What becomes of a mirror set that the word finds begun.
fn about_set(step: &Step) -> Option<String> {
    let words = received(&step.before.mirror_set)?;
    let dropped = step.after.mirror_set.received == 0;
    let what = match (step.outcome, step.kind()) {
        (Outcome::Taken(_), Some(Kind::Start)) => "INCOMPLETE MIRROR SET",
        (Outcome::Taken(_), Some(Kind::SinM)) => "MIRROR SET BEGUN ANEW",
        (Outcome::Ignored(_), _) if dropped => "MIRROR SET DROPPED",
        _ => return None,
    };
    Some(format!("{what}; received: {words}"))
}

/// The words of a begun set.
pub fn received(set: &MirrorSet) -> Option<&'static str> {
    match set.received {
        1 => Some("SIN M"),
        2 => Some("SIN M, SIN L"),
        3 => Some("SIN M, SIN L, COS M"),
        _ => None,
    }
}

/// What moves while an exposure begins.
fn about_motions(step: &Step) -> Vec<String> {
    let motions = [
        ("MIRROR", step.before.mirror_motion, 4),
        ("COVER", step.before.cover_motion, 5),
    ];
    let moving = motions.into_iter().filter(|(_, ticks, _)| *ticks > 0);
    let note = |(what, ticks, columns): (&str, u16, usize)| {
        let time = seconds(ticks.into());
        format!("THE {what} MOVES for {ticks} ticks more, {time:>columns$} s")
    };
    moving.map(note).collect()
}
