//! A plan read order by order, without any words.

use crate::head::Act;
use crate::plan::{orders, CoverMove, Order, Refusal};
use crate::state::{Settings, State};

/// One entry of a log of acts.
#[derive(Clone, Copy, Debug, PartialEq, Eq)]
pub enum LoggedAct {
    /// An exposure with all settings as they stood.
    Exposure(Settings),
    Housekeeping,
    Cover(CoverMove),
}

impl LoggedAct {
    /// The entry of an act, with the settings that its word found.
    pub fn of(act: Act, found: &Settings) -> Option<LoggedAct> {
        match act {
            Act::None => None,
            Act::Exposure => Some(LoggedAct::Exposure(*found)),
            Act::Housekeeping => Some(LoggedAct::Housekeeping),
            Act::Cover(data) => Some(LoggedAct::Cover(CoverMove::from_data(data))),
        }
    }
}

/// What a plan says: the final settings and the acts, in order.
#[derive(Clone, Debug, PartialEq, Eq)]
pub struct Reading {
    pub settings: Settings,
    pub log: Vec<LoggedAct>,
}

/// Reads a plan for a head in the given state, or refuses it (1 to 9).
pub fn read_plan(state: &State, plan: &[u8]) -> Result<Reading, Refusal> {
    let orders = orders(state, plan)?;
    let mut settings = state.settings;
    let mut log = Vec::new();
    for order in orders.as_slice() {
        order.set(&mut settings);
        log.extend(logged(order, &settings));
    }
    Ok(Reading { settings, log })
}

fn logged(order: &Order, settings: &Settings) -> Option<LoggedAct> {
    match *order {
        Order::Cover(cover) => Some(LoggedAct::Cover(cover)),
        Order::Expose => Some(LoggedAct::Exposure(*settings)),
        Order::Housekeeping => Some(LoggedAct::Housekeeping),
        _ => None,
    }
}
