//! What the words of requests mean, a line for each.

use crate::failure::{DONE, REFUSED};
use crate::texts::Text;
use shabgozim::{decode_request, CoverParameter, Meaning, PemMode, Request};

/// What joins the requests that have the same word.
const OR: &str = " or ";
/// The value of a refused word.
const NO_VALUE: &str = "-";

/// A title and the lines of these words. The status tells whether one is
/// refused.
pub fn lines(words: &[u16]) -> Text {
    let mut text = columns("word", "value", "request", "what the value says");
    let mut status = DONE;
    for &word in words {
        let digits = format!("{word:04X}");
        match decode_request(word) {
            Ok((meaning, value)) => text += &accepted(&digits, meaning, value),
            Err(refusal) => {
                text += &columns(&digits, NO_VALUE, &refusal.in_words(), "");
                status = REFUSED;
            }
        }
    }
    let bytes = text.into();
    Text { bytes, status }
}

fn accepted(digits: &str, meaning: Meaning, value: u16) -> String {
    let names = meaning.requests().iter().map(|request| request.name());
    let names = names.collect::<Vec<_>>().join(OR);
    let says = match meaning {
        Meaning::One(request) => says(request, value),
        Meaning::Shared(_) => String::new(),
    };
    columns(digits, &value.to_string(), &names, &says)
}

/// A line. What says nothing leaves no spaces at its end.
fn columns(word: &str, value: &str, request: &str, says: &str) -> String {
    let line = format!("{word:4}  {value:>5}  {request:20}  {says}");
    format!("{}\n", line.trim_end())
}

/// What the fields of a request's value say, in the words of source document
/// 000; empty where it has none.
fn says(request: Request, value: u16) -> String {
    match request {
        Request::HSetCover => return cover(CoverParameter::from_value(value)),
        Request::HSetPemMode => return mode(PemMode::from_value(value)),
        Request::HSetShutterStatus => choice(value == 1, "on", "off"),
        Request::HSetShutterOn => "on, closed",
        Request::HSetShutterOff => "off, open",
        Request::HSetDetOn
        | Request::HSetFpaHtrOn
        | Request::HSetLampSpectTOn
        | Request::HSetLampSpectSOn
        | Request::HSetLampRadioOn
        | Request::HSetDetTempOn => "on",
        Request::HSetDetOff | Request::HSetFpaHtrOff | Request::HSetDetTempOff => "off",
        Request::HSetCalOff => "off, all three lamps",
        _ => "",
    }
    .into()
}

fn cover(cover: CoverParameter) -> String {
    let direction = choice(cover.opens, "open", "close");
    let wave = choice(cover.wave, "one wave", "half wave");
    let sensors = choice(cover.sensors, "enabled", "disabled");
    let steps = cover.steps;
    format!("{direction}, {wave}, Hall sensors {sensors}, steps {steps}")
}

fn mode(mode: PemMode) -> String {
    let source = choice(mode.simulation, "simulation", "observation");
    let pixels = choice(mode.all_matrix, "all matrix", "8 orders");
    format!("{source}, {pixels}")
}

fn choice(bit: bool, set: &'static str, clear: &'static str) -> &'static str {
    match bit {
        true => set,
        false => clear,
    }
}
