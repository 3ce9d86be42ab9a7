//! The texts of plans, one after another, of a list, of two inputs, of words at a
//! tick of a list, and a map's picture.

use crate::description::{AtTick, Inputs, Pair};
use crate::descriptors::Descriptors;
use crate::failure::{Failure, DONE, REFUSED};
use crate::source::Source;
use shabgozim::{inspection, read_list, PixelMap, PlanRefusal, State, MOST_PLAN_BYTES};
use std::ffi::{c_int, OsStr};

/// What stands between the names of inputs in a message.
const BETWEEN_NAMES: &str = ", ";

/// The text or picture of one input, and the exit status when it is printed.
pub struct Text {
    pub bytes: Vec<u8>,
    pub status: c_int,
}

/// Why two inputs have no text.
pub struct PairRefusal {
    /// The places of the inputs that it is about.
    pub about: &'static [usize],
    pub words: String,
}

/// What is to be printed, the exit status then, and why it is not more.
pub struct Texts {
    pub bytes: Vec<u8>,
    pub status: c_int,
    pub failure: Option<Failure>,
}

impl Texts {
    pub fn of(text: Text) -> Texts {
        Texts {
            bytes: text.bytes,
            status: text.status,
            failure: None,
        }
    }

    fn add(&mut self, next: Text) {
        self.bytes.extend(next.bytes);
        self.status = self.status.max(next.status);
    }
}

impl Text {
    /// What is printed with status 0.
    pub fn done(bytes: impl Into<Vec<u8>>) -> Text {
        Text {
            bytes: bytes.into(),
            status: DONE,
        }
    }
}

/// The texts of all sources, for one head that begins at power-on. The first
/// failure ends them.
pub fn of_all(inputs: &Inputs, sources: &[Source], descriptors: &Descriptors) -> Texts {
    let mut head = State::power_on();
    let mut done = Texts::of(Text::done([]));
    for source in sources {
        match of_one(inputs, source, descriptors, &mut head) {
            Ok(text) => done.add(text),
            Err(failure) => {
                done.failure = Some(failure);
                break;
            }
        }
    }
    done
}

fn of_one(
    inputs: &Inputs,
    source: &Source,
    descriptors: &Descriptors,
    head: &mut State,
) -> Result<Text, Failure> {
    let input = source.bytes(inputs.most_bytes, descriptors)?;
    let text = (inputs.text)(head, &input);
    text.map_err(|refusal| Failure::refused(source.name(), &refusal))
}

/// The text of two sources together. Both are read before either is judged.
pub fn of_pair(
    pair: &Pair,
    sources: &[Source; 2],
    descriptors: &Descriptors,
) -> Result<Text, Failure> {
    let [first, second] = sources;
    let first = first.bytes(pair.most_bytes, descriptors)?;
    let second = second.bytes(pair.most_bytes, descriptors)?;
    (pair.text)([&first, &second]).map_err(|refusal| {
        let names = refusal.about.iter().map(|&place| sources[place].name());
        let names = names.collect::<Vec<_>>().join(OsStr::new(BETWEEN_NAMES));
        Failure::refused(&names, &refusal.words)
    })
}

/// The text about words at a tick of the list that a source has.
pub fn of_tick(
    at_tick: &AtTick,
    list: &Source,
    tick: u32,
    words: &[u16],
    descriptors: &Descriptors,
) -> Result<Text, Failure> {
    let bytes = list.bytes(at_tick.most_bytes, descriptors)?;
    let text = (at_tick.text)(&bytes, tick, words);
    text.map_err(|refusal| Failure::refused(list.name(), &refusal))
}

/// A text about a plan.
pub fn planned(
    plan: &[u8],
    text: impl FnOnce(&[u8]) -> Result<String, PlanRefusal>,
) -> Result<Text, String> {
    if plan.len() > MOST_PLAN_BYTES {
        return Err("input too long".into());
    }
    let text = text(plan).map_err(|refusal| refusal.in_words(plan))?;
    Ok(Text::done(text))
}

/// The inspection of a list.
pub fn inspected(list: &[u8]) -> Result<Text, String> {
    let list = read_list(list).map_err(|refusal| refusal.in_words())?;
    // What is read is a list, so that no second refusal comes.
    let inspected = inspection(&list.words, &list.ticks);
    let inspected = inspected.map_err(|refusal| format!("refused {}", refusal.number()))?;
    let status = match inspected.findings {
        0 => DONE,
        _ => REFUSED,
    };
    let bytes = inspected.text.into();
    Ok(Text { bytes, status })
}

/// The picture of a pixel map.
pub fn pictured(map: &[u8]) -> Result<Text, String> {
    let map = PixelMap::from_bytes(map).map_err(|refusal| refusal.in_words())?;
    Ok(Text::done(map.picture()))
}
