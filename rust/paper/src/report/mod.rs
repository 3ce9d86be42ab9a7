//! The report of a plan: what a head does with it, laid out for reading.

pub(crate) mod groups;
pub(crate) mod layout;
pub(crate) mod lines;
mod simulation;

use crate::head::{tick, Ticked};
use crate::plan::Refusal;
use crate::reading::{read_plan, LoggedAct, Reading};
use crate::state::{power_on, State};
use groups::groups;
use layout::{flags, motion, seconds};
use simulation::Simulation;

const TITLES: &str =
    "order     tick   seconds  what the head does; * marks what is new since the exposure before";

/// Lets ticks pass until the head is idle and nothing moves, simulates the
/// plan on it and gives the report; the head is then at the plan's end. A
/// refusal (1 to 9) leaves it as it was.
pub fn report(state: &mut State, plan: &[u8]) -> Result<String, Refusal> {
    let mut ready = *state;
    let passed = settle(&mut ready);
    let reading = read_plan(&ready, plan)?;
    let simulation = Simulation::of(&ready, plan)?;
    let text = [
        about_plan(plan, &simulation),
        about_start(state, passed, &ready),
        format!("\n{TITLES}\n{}\n", lines::of_orders(&simulation, &ready)),
        about_end(&simulation, &ready),
        about_reading(&simulation, &reading),
    ];
    *state = simulation.head;
    Ok(text.concat())
}

/// Lets ticks pass until the head is idle and at rest; gives their number.
fn settle(head: &mut State) -> u32 {
    let mut passed = 0;
    while head.busy > 0 || !head.at_rest() {
        if let Ticked::Refused(_) = tick(head) {
            break;
        }
        passed += 1;
    }
    passed
}

fn about_plan(plan: &[u8], simulation: &Simulation) -> String {
    let (bytes, orders) = (plan.len(), simulation.steps.len());
    let words = simulation.words;
    format!("plan      {bytes} bytes, {orders} orders, {words} words\n")
}

/// The given state by name, and the state in which the plan finds the head.
fn about_start(given: &State, passed: u32, ready: &State) -> String {
    let name = match *given == power_on() {
        true => "power-on",
        false => "the state that was left before",
    };
    let time = seconds(passed);
    let flags = flags(&ready.error_flags());
    let groups = groups(&ready.settings, &ready.settings);
    format!(
        "start     {name}\n\
         passed    {passed} ticks, {time:>5} s, until the head was idle and nothing moved\n\
         flags     {flags}\n\
         settings at the start\n\
         {groups}"
    )
}

fn about_end(simulation: &Simulation, start: &State) -> String {
    let Simulation {
        head, end, words, ..
    } = simulation;
    let time = seconds(*end);
    let groups = groups(&head.settings, &start.settings);
    let (mirror, cover) = (motion(head.mirror_motion, 4), motion(head.cover_motion, 5));
    let taken = simulation.taken;
    let flags = flags(&head.error_flags());
    let since = match head.error_flags() == start.error_flags() {
        true => "as at the start",
        false => "cleared when blocks were due",
    };
    format!(
        "end  {end:>9}{time:>10}\n\
         settings at the end; * marks what is new since the start\n\
         {groups}\
         mirror    {mirror}\n\
         cover     {cover}\n\
         words     {taken} of {words} taken\n\
         flags     {flags}, {since}\n"
    )
}

/// Whether the head did what the plan says.
fn about_reading(simulation: &Simulation, reading: &Reading) -> String {
    let acts = simulation.steps.iter().filter_map(|step| step.act);
    let log: Vec<LoggedAct> = acts.collect();
    let as_read = log == reading.log && simulation.head.settings == reading.settings;
    let not = if as_read { "" } else { "NOT " };
    format!("reading   acts and settings are {not}those of the plan read without words\n")
}
