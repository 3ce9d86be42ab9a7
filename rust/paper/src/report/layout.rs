//! How a report writes numbers, switches, flags and motions.

use crate::state::ErrorFlags;

const TICKS_IN_SECOND: u32 = 100;
/// A delay or exposure register counts 0.02 s.
const TICKS_IN_REGISTER: u32 = 2;
const SINE_SIGN: u16 = 1 << 12;

/// Names of a register's two values, 0 first.
pub type Names = [&'static str; 2];
pub const OFF_ON: Names = ["off", "on"];
/// SWITCH: 0 is on.
pub const SWITCH: Names = ["on", "off"];
pub const DIRECTION: Names = ["close", "open"];
pub const WINDOW_MODE: Names = ["full", "reduced"];
pub const SHUTTER: Names = ["open", "closed"];
pub const WAVE: Names = ["half", "one"];
pub const SENSORS: Names = ["disabled", "enabled"];

/// Ticks as seconds with two decimals.
pub fn seconds(ticks: u32) -> String {
    let (whole, rest) = (ticks / TICKS_IN_SECOND, ticks % TICKS_IN_SECOND);
    format!("{whole}.{rest:02}")
}

/// A delay or exposure register as seconds, five columns wide.
pub fn register_seconds(register: u16) -> String {
    let time = seconds(TICKS_IN_REGISTER * u32::from(register));
    format!("{time:>5}")
}

/// A sine register with its sign, five columns wide.
pub fn sine(register: u16) -> String {
    let sign = if register & SINE_SIGN == 0 { '+' } else { '-' };
    let signed = format!("{sign}{}", register & !SINE_SIGN);
    format!("{signed:>5}")
}

pub fn name(names: Names, value: u16) -> &'static str {
    names[usize::from(value != 0)]
}

/// The switch of a lamp, shutter or annealing register.
pub fn switched(register: u16) -> u16 {
    register & 1
}

/// The current or limit of a lamp, shutter or annealing register.
pub fn level(register: u16) -> u16 {
    register >> 1
}

/// The raised flags by name, or none.
pub fn flags(flags: &ErrorFlags) -> String {
    let named = [
        (flags.ir_time, "IR time"),
        (flags.ir_word, "IR word"),
        (flags.ir_scan, "scan"),
        (flags.vis_time, "VIS time"),
        (flags.vis_word, "VIS word"),
    ];
    let raised = named.into_iter().filter(|(is_raised, _)| *is_raised);
    let names: Vec<&str> = raised.map(|(_, name)| name).collect();
    match names.is_empty() {
        true => String::from("none"),
        false => names.join(" "),
    }
}

/// What is left of a motion, its seconds so many columns wide.
pub fn motion(ticks: u16, columns: usize) -> String {
    if ticks == 0 {
        return String::from("at rest");
    }
    let time = seconds(ticks.into());
    format!(
        "moves for {ticks} ticks more, {time:>columns$} s; \
         until then the next plan is refused with 1"
    )
}
