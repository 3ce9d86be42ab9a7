//! The lines of a plan's orders.

use super::groups::groups;
use super::layout::{
    level, name, register_seconds, seconds, sine, switched, DIRECTION, OFF_ON, SENSORS, SHUTTER,
    SWITCH, WAVE, WINDOW_MODE,
};
use super::simulation::{Simulation, Step};
use crate::plan::{CoverMove, Order};
use crate::reading::LoggedAct;
use crate::state::{Settings, State, COVER_STEP_TICKS, MIRROR_TICKS};

/// A line for each order; after an exposure's line come its settings.
pub fn of_orders(simulation: &Simulation, start: &State) -> String {
    let mut before = start.settings;
    let mut text = String::new();
    for (step, index) in simulation.steps.iter().zip(1..) {
        text += &line(index, step);
        if let Some(LoggedAct::Exposure(found)) = step.act {
            text += &groups(&found, &before);
            before = found;
        }
    }
    text
}

fn line(index: usize, step: &Step) -> String {
    let what = match step.act {
        Some(act) => act_text(act),
        None => fields_text(&step.order),
    };
    let tick = step.tick.map_or(String::new(), |tick| tick.to_string());
    let time = step.tick.map_or(String::new(), seconds);
    format!("{index:>5}{tick:>9}{time:>10}  {what}\n")
}

/// What the head did.
fn act_text(act: LoggedAct) -> String {
    match act {
        LoggedAct::Cover(cover) => cover_text(cover),
        LoggedAct::Exposure(found) => exposure_text(&found),
        LoggedAct::Housekeeping => String::from("housekeeping"),
    }
}

fn cover_text(cover: CoverMove) -> String {
    let direction = name(DIRECTION, cover.direction.into());
    let wave = name(WAVE, cover.wave.into());
    let sensors = name(SENSORS, cover.sensors.into());
    let steps = cover.steps;
    let ticks = COVER_STEP_TICKS * u16::from(steps);
    let time = seconds(ticks.into());
    format!(
        "cover {direction}, {wave} wave, sensors {sensors}, \
         {steps} steps: {ticks} ticks, {time:>5} s"
    )
}

pub fn exposure_text(found: &Settings) -> String {
    let pair = pair_text(found.sine, found.cosine);
    let length = seconds(found.acquisition_length());
    format!("exposure: {pair}, length {length:>5} s")
}

pub fn pair_text(sine_register: u16, cosine: u16) -> String {
    format!("sine {}, cosine {cosine:>4}", sine(sine_register))
}

/// The fields of an order that is no act.
fn fields_text(order: &Order) -> String {
    match *order {
        Order::Vdetcom(value) => format!("VDETCOM {value:>4}"),
        Order::Vdetadj(value) => format!("VDETADJ {value:>4}"),
        Order::IrTimes { delay, expo } => format!("IR {}", times_text(delay, expo)),
        Order::CcdTimes { delay, expo } => format!("CCD {}", times_text(delay, expo)),
        Order::WindowMode(mode) => format!("IR window mode {}", name(WINDOW_MODE, mode)),
        Order::Window { x1, y1, x2, y2 } => format!("CCD window {x1:>4} {y1:>4} {x2:>4} {y2:>4}"),
        Order::Detector(value) => format!("detector {}", name(OFF_ON, value)),
        Order::CcdLamp(value) => format!("CCD lamp {}", lamp_text(value)),
        Order::IrLamp(value) => format!("IR lamp {}", lamp_text(value)),
        Order::Shutter(value) => {
            let shutter = name(SHUTTER, switched(value));
            format!("shutter {shutter}, current {}", level(value))
        }
        Order::Annealing(value) => {
            let annealing = name(OFF_ON, switched(value));
            format!("annealing {annealing}, limit {}", level(value))
        }
        Order::Mirror { sine, cosine } => {
            let pair = pair_text(sine, cosine);
            format!("mirror to {pair}; it moves for {}", mirror_time())
        }
        Order::Switch(value) => motor_text(value),
        Order::Wait(ticks) => format!("wait {ticks} ticks, {:>6} s", seconds(ticks.into())),
        Order::Cover(_) | Order::Expose | Order::Housekeeping => String::from("ignored"),
    }
}

fn times_text(delay: u16, expo: u16) -> String {
    let (delay, exposure) = (register_seconds(delay), register_seconds(expo));
    format!("delay {delay} s, exposure {exposure} s")
}

pub fn lamp_text(register: u16) -> String {
    let lamp = name(OFF_ON, switched(register));
    format!("{lamp}, current {}", level(register))
}

/// A motor that is switched on moves the mirror.
fn motor_text(switch: u16) -> String {
    let motor = name(SWITCH, switch);
    match switch {
        0 => format!("motor {motor}; the mirror moves for {}", mirror_time()),
        _ => format!("motor {motor}"),
    }
}

pub fn mirror_time() -> String {
    format!("{MIRROR_TICKS} ticks, {} s", seconds(MIRROR_TICKS.into()))
}
