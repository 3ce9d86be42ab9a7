//! Faults in reports and in refusals in words.

use crate::fault::{changes, orders, Fault};
use compare::sides::{Paper, Side};
use paper::{State, Ticked};

const REPORTS: &str = "reports";
const REFUSALS: &str = "refusals in words";

/// How many lines the settings have.
const GROUP_LINES: usize = 7;

pub const FAULTS: &[Fault] = &[
    Fault {
        name: "the first exposure shows the settings at the start",
        put: |sides| sides.paper.report = shows_settings_at_start,
        part: REPORTS,
        is_reduced: |text| orders(text) == 2 && from_power_on(text),
    },
    Fault {
        name: "a mark is left out",
        put: |sides| sides.paper.report = leaves_out_mark,
        part: REPORTS,
        is_reduced: |text| orders(text) == 1 && from_power_on(text) && text.contains("limit *"),
    },
    Fault {
        name: "the IR delay's seconds are the CCD delay's",
        put: |sides| sides.paper.report = shows_other_register,
        part: REPORTS,
        is_reduced: |text| orders(text) + changes(text) == 1,
    },
    Fault {
        name: "an order's tick is one too large",
        put: |sides| sides.paper.report = tick_too_large,
        part: REPORTS,
        is_reduced: |text| orders(text) == 1 && from_power_on(text),
    },
    Fault {
        name: "a raised flag is not named",
        put: |sides| sides.paper.report = leaves_out_flag,
        part: REPORTS,
        is_reduced: |text| orders(text) == 0 && changes(text) == 1,
    },
    Fault {
        name: "cleared flags are said to be as they were",
        put: |sides| sides.paper.report = forgets_cleared_flags,
        part: REPORTS,
        is_reduced: |text| orders(text) == 1 && changes(text) == 1,
    },
    Fault {
        name: "a mirror that moves is said to be at rest",
        put: |sides| sides.paper.report = mirror_at_rest,
        part: REPORTS,
        is_reduced: |text| orders(text) == 1 && from_power_on(text),
    },
    Fault {
        name: "power-on is told by the settings alone",
        put: |sides| sides.paper.report = settings_of_power_on,
        part: REPORTS,
        is_reduced: |text| orders(text) == 0 && changes(text) == 1,
    },
    Fault {
        name: "no ticks pass before the plan",
        put: |sides| sides.paper.report = refuses_motion,
        part: REPORTS,
        is_reduced: |text| orders(text) == 0 && changes(text) <= 2,
    },
    Fault {
        name: "the state is left as it was",
        put: |sides| sides.paper.report = leaves_state,
        part: REPORTS,
        is_reduced: |text| text.contains("\nstate[") && orders(text) + changes(text) <= 2,
    },
    Fault {
        name: "ticks pass before a refusal",
        put: |sides| sides.paper.report = advances_refused_state,
        part: REPORTS,
        is_reduced: |text| text.starts_with("report, plan\n") && changes(text) <= 2,
    },
    Fault {
        name: "a byte past the text is written",
        put: |sides| sides.paper.report = writes_past_text,
        part: REPORTS,
        is_reduced: |text| text.starts_with("report, plan 01 00 00\nfrom power-on\n"),
    },
    Fault {
        name: "both sides end a line in a space",
        put: |sides| {
            sides.library.report = ends_in_space;
            sides.paper.report = ends_in_space;
        },
        part: REPORTS,
        is_reduced: |text| {
            orders(text) == 1 && text.ends_with("\nform: |    1        0      0.00  housekeeping |")
        },
    },
    Fault {
        name: "both sides have a line of 101 columns",
        put: |sides| {
            sides.library.report = too_wide;
            sides.paper.report = too_wide;
        },
        part: REPORTS,
        is_reduced: |text| orders(text) == 1 && text.contains("\nform: |"),
    },
    Fault {
        name: "orders are counted from 0",
        put: |sides| sides.paper.refusal = counts_from_0,
        part: REFUSALS,
        is_reduced: |text| text.starts_with("refusal 5 at 3, plan 01 00 01 00\n"),
    },
    Fault {
        name: "the 65th order is called the 64th",
        put: |sides| sides.paper.refusal = calls_65th_64th,
        part: REFUSALS,
        is_reduced: |text| text.starts_with("refusal 9 at ") && orders(text) == 65,
    },
    Fault {
        name: "room without the newline is taken for enough",
        put: |sides| sides.paper.refusal = leaves_newline_out,
        part: REFUSALS,
        is_reduced: |text| text.contains(" at 0, plan\nwith room for "),
    },
];

fn from_power_on(text: &str) -> bool {
    text.contains("\nfrom power-on\n")
}

/// The paper's report, its text changed.
fn changed(state: &mut [u16], plan: &[u8], text: &mut [u8], change: fn(&str) -> String) -> u64 {
    let mut lent = text.to_vec();
    let answer = Paper::report(state, plan, &mut lent);
    if answer as u8 != 0 {
        return answer;
    }
    let length = (answer >> 32) as usize;
    let report = change(std::str::from_utf8(&lent[..length]).expect("a text"));
    text[..report.len()].copy_from_slice(report.as_bytes());
    (report.len() as u64) << 32
}

/// The text with each line changed.
fn each_line(text: &str, change: impl Fn(&str) -> String) -> String {
    let lines = text.lines().map(|line| change(line) + "\n");
    lines.collect()
}

fn shows_settings_at_start(state: &mut [u16], plan: &[u8], text: &mut [u8]) -> u64 {
    changed(state, plan, text, |report| {
        let mut lines: Vec<String> = report.lines().map(String::from).collect();
        let place = |what| lines.iter().position(|line| line.contains(what));
        let start = place("settings at the start").expect("a start") + 1;
        if let Some(exposure) = place("  exposure: ") {
            for line in 0..GROUP_LINES {
                lines[exposure + 1 + line] = lines[start + line].clone();
            }
        }
        lines.join("\n") + "\n"
    })
}

fn leaves_out_mark(state: &mut [u16], plan: &[u8], text: &mut [u8]) -> u64 {
    changed(state, plan, text, |report| {
        report.replace("limit *", "limit  ")
    })
}

/// The settings at the start have a line of IR times, and one of the CCD's
/// after it.
fn shows_other_register(state: &mut [u16], plan: &[u8], text: &mut [u8]) -> u64 {
    changed(state, plan, text, |report| {
        const SECONDS: std::ops::Range<usize> = 35..40;
        let mut lines: Vec<String> = report.lines().map(String::from).collect();
        let ccd = lines
            .iter()
            .position(|line| line.starts_with("        CCD "));
        let ccd = ccd.expect("settings of the CCD");
        let seconds = lines[ccd][SECONDS].to_string();
        lines[ccd - 1].replace_range(SECONDS, &seconds);
        lines.join("\n") + "\n"
    })
}

fn tick_too_large(state: &mut [u16], plan: &[u8], text: &mut [u8]) -> u64 {
    changed(state, plan, text, |report| {
        each_line(report, |line| {
            const TICK: std::ops::Range<usize> = 5..14;
            let mut line = line.to_string();
            if line.contains("  CCD window ") {
                let tick: u32 = line[TICK].trim().parse().expect("a tick");
                line.replace_range(TICK, &format!("{:>9}", tick + 1));
            }
            line
        })
    })
}

fn leaves_out_flag(state: &mut [u16], plan: &[u8], text: &mut [u8]) -> u64 {
    changed(state, plan, text, |report| report.replace(" scan", ""))
}

fn forgets_cleared_flags(state: &mut [u16], plan: &[u8], text: &mut [u8]) -> u64 {
    changed(state, plan, text, |report| {
        report.replace("cleared when blocks were due", "as at the start")
    })
}

fn mirror_at_rest(state: &mut [u16], plan: &[u8], text: &mut [u8]) -> u64 {
    changed(state, plan, text, |report| {
        each_line(report, |line| match line.starts_with("mirror    moves") {
            true => "mirror    at rest".into(),
            false => line.into(),
        })
    })
}

fn settings_of_power_on(state: &mut [u16], plan: &[u8], text: &mut [u8]) -> u64 {
    let given = state.first_chunk().map(State::from_array);
    let as_power_on = given.is_some_and(|given| given.settings == paper::power_on().settings);
    match as_power_on {
        true => changed(state, plan, text, |report| {
            report.replace("the state that was left before", "power-on")
        }),
        false => Paper::report(state, plan, text),
    }
}

fn refuses_motion(state: &mut [u16], plan: &[u8], text: &mut [u8]) -> u64 {
    const NOT_READY: u64 = 1;
    match Paper::translate(state, plan, &mut [], &mut []) {
        NOT_READY => NOT_READY,
        _ => Paper::report(state, plan, text),
    }
}

fn leaves_state(state: &mut [u16], plan: &[u8], text: &mut [u8]) -> u64 {
    Paper::report(&mut state.to_vec(), plan, text)
}

fn advances_refused_state(state: &mut [u16], plan: &[u8], text: &mut [u8]) -> u64 {
    let answer = Paper::report(state, plan, text);
    if let (2.., Some(places)) = (answer as u8, state.first_chunk_mut()) {
        let mut head = State::from_array(places);
        while !head.at_rest() && paper::tick(&mut head) != Ticked::Refused(21) {}
        *places = head.to_array();
    }
    answer
}

fn writes_past_text(state: &mut [u16], plan: &[u8], text: &mut [u8]) -> u64 {
    let answer = Paper::report(state, plan, text);
    if answer as u8 == 0 {
        text[(answer >> 32) as usize] = 0;
    }
    answer
}

fn ends_in_space(state: &mut [u16], plan: &[u8], text: &mut [u8]) -> u64 {
    changed(state, plan, text, |report| {
        report.replace("  housekeeping\n", "  housekeeping \n")
    })
}

fn too_wide(state: &mut [u16], plan: &[u8], text: &mut [u8]) -> u64 {
    changed(state, plan, text, |report| {
        each_line(report, |line| match line.ends_with("  housekeeping") {
            true => format!("{line:.<101}"),
            false => line.into(),
        })
    })
}

/// The paper's refusal in words, its text changed.
fn reworded(
    (number, place): (u8, u32),
    plan: &[u8],
    text: &mut [u8],
    change: fn(String) -> String,
) -> u32 {
    let mut lent = text.to_vec();
    let length = Paper::refusal(number, place, plan, &mut lent) as usize;
    let line = change(String::from_utf8_lossy(&lent[..length]).into_owned());
    text[..line.len()].copy_from_slice(line.as_bytes());
    line.len() as u32
}

fn counts_from_0(number: u8, place: u32, plan: &[u8], text: &mut [u8]) -> u32 {
    reworded((number, place), plan, text, |line| {
        let Some((before, index)) = line.split_once(", order ") else {
            return line;
        };
        let index = index.trim_end_matches(")\n");
        let index: u32 = index.parse().expect("an index");
        format!("{before}, order {})\n", index - 1)
    })
}

fn calls_65th_64th(number: u8, place: u32, plan: &[u8], text: &mut [u8]) -> u32 {
    reworded((number, place), plan, text, |line| {
        line.replace("order 65", "order 64")
    })
}

fn leaves_newline_out(number: u8, place: u32, plan: &[u8], text: &mut [u8]) -> u32 {
    let mut longer = text.to_vec();
    longer.push(0);
    let length = Paper::refusal(number, place, plan, &mut longer);
    if length as usize == longer.len() {
        longer.pop();
    }
    text.copy_from_slice(&longer[..text.len()]);
    length
}
