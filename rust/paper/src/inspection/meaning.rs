//! What the data of a word mean.

use super::step::Step;
use crate::report::layout::{
    level, name, register_seconds, switched, DIRECTION, OFF_ON, SENSORS, SHUTTER, SWITCH, WAVE,
    WINDOW_MODE,
};
use crate::report::lines::{exposure_text, lamp_text};
use crate::words::{decode, Decoded, Kind};

const DATA_BITS: u16 = 0x03FF;

pub fn meaning(step: &Step) -> String {
    if step.is_exposure() {
        return exposure_text(&step.before.settings);
    }
    let (identifier, bits) = (step.word >> 10, step.word & DATA_BITS);
    match decode(step.word) {
        Decoded::Unknown => format!("identifier {identifier}, data {bits}"),
        Decoded::OutOfRange { .. } => format!("data {bits}"),
        Decoded::Allowed { kind, data } => of_kind(kind, data),
    }
}

fn of_kind(kind: Kind, data: u16) -> String {
    match kind {
        Kind::Nop => String::from("no operation"),
        Kind::Start => String::from("start of an acquisition"),
        Kind::Hk => String::from("housekeeping"),
        Kind::Stop => String::from("stop"),
        Kind::IrDetector => format!("detector {}", name(OFF_ON, data)),
        Kind::IrWinMode => format!("IR window mode {}", name(WINDOW_MODE, data)),
        Kind::VdetcomM => upper("VDETCOM", data),
        Kind::VdetcomL => lower("VDETCOM", data),
        Kind::VdetadjM => upper("VDETADJ", data),
        Kind::VdetadjL => lower("VDETADJ", data),
        Kind::IrDelay => time("IR delay", data),
        Kind::IrExpo => time("IR exposure", data),
        Kind::WinX1 => format!("CCD window X1 {data}"),
        Kind::WinY1 => format!("CCD window Y1 {data}"),
        Kind::WinX2 => format!("CCD window X2 {data}"),
        Kind::WinY2 => format!("CCD window Y2 {data}"),
        Kind::CcdDelay => time("CCD delay", data),
        Kind::CcdExpo => time("CCD exposure", data),
        Kind::CcdLamp => format!("CCD lamp {}", lamp_text(data)),
        Kind::IrLamp => format!("IR lamp {}", lamp_text(data)),
        Kind::Shutter => shutter(data),
        Kind::Annealing => annealing(data),
        Kind::SinM => sine_m(data),
        Kind::SinL => lower("sine", data),
        Kind::CosM => upper("cosine", data),
        Kind::CosL => lower("cosine", data),
        Kind::Switch => format!("motor {}", name(SWITCH, data)),
        Kind::Cover => cover(data),
    }
}

fn upper(register: &str, data: u16) -> String {
    format!("{register}, upper 4 bits: {data}")
}

fn lower(register: &str, data: u16) -> String {
    format!("{register}, lower 8 bits: {data}")
}

fn time(register: &str, data: u16) -> String {
    format!("{register} {} s", register_seconds(data))
}

fn shutter(data: u16) -> String {
    let shutter = name(SHUTTER, switched(data));
    format!("shutter {shutter}, current {}", level(data))
}

fn annealing(data: u16) -> String {
    let annealing = name(OFF_ON, switched(data));
    format!("annealing {annealing}, limit {}", level(data))
}

/// Bit 4 is the sign.
fn sine_m(data: u16) -> String {
    let sign = if data >> 4 == 0 { '+' } else { '-' };
    upper(&format!("sine {sign}"), data & 0xF)
}

fn cover(data: u16) -> String {
    let direction = name(DIRECTION, data >> 9 & 1);
    let wave = name(WAVE, data >> 8 & 1);
    let sensors = name(SENSORS, data >> 7 & 1);
    let steps = data & 0x7F;
    format!("{direction}, {wave} wave, sensors {sensors}, {steps} steps")
}
