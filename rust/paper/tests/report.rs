//! Reports: the stored ones byte for byte, and what they do not show.

use paper::{power_on, report, word, Refusal, State};
use std::fs;
use std::path::{Path, PathBuf};

const FOLDER: &str = concat!(env!("CARGO_MANIFEST_DIR"), "/../../examples/plans");
const LEAST_REPORTS: usize = 4;

#[test]
fn the_stored_reports() {
    let entries = fs::read_dir(FOLDER).expect("the folder of examples is there");
    let paths = entries.map(|entry| entry.expect("an entry").path());
    let is_report = |path: &PathBuf| path.extension().is_some_and(|end| end == "report");
    let reports: Vec<PathBuf> = paths.filter(is_report).collect();
    for path in &reports {
        let mut head = power_on();
        let texts = plans(path).into_iter().map(|plan| text(&mut head, &plan));
        let stored = fs::read_to_string(path).expect("a report is text");
        assert_eq!(texts.collect::<String>(), stored, "{}", path.display());
    }
    assert!(reports.len() >= LEAST_REPORTS, "{} reports", reports.len());
}

/// The plans of `NAME.report`: `NAME.plan`, or those that `NAME.plans` names.
fn plans(report: &Path) -> Vec<Vec<u8>> {
    if let Ok(plan) = fs::read(report.with_extension("plan")) {
        return vec![plan];
    }
    let names = fs::read_to_string(report.with_extension("plans")).expect("names of plans");
    let paths = names
        .split_whitespace()
        .map(|name| Path::new(FOLDER).join(name));
    paths
        .map(|path| fs::read(path).expect("a plan of that name"))
        .collect()
}

fn text(head: &mut State, plan: &[u8]) -> String {
    report(head, plan).expect("an accepted plan")
}

/// Whether a report has this line.
fn has_line(text: &str, line: &str) -> bool {
    text.lines().any(|found| found == line)
}

#[test]
fn flags_stay_until_blocks_are_due() {
    let mut head = power_on();
    word(&mut head, 0x3800);
    let nothing = text(&mut head, &[1, 0, 0]);
    assert!(has_line(
        &nothing,
        "start     the state that was left before"
    ));
    assert!(has_line(&nothing, "flags     IR word VIS word"));
    assert!(has_line(
        &nothing,
        "flags     IR word VIS word, as at the start"
    ));
    let housekeeping = text(&mut head, &[1, 0, 2, 1, 16]);
    assert!(has_line(&housekeeping, "flags     IR word VIS word"));
    assert!(has_line(
        &housekeeping,
        "flags     none, cleared when blocks were due"
    ));
    assert_eq!(head, power_on());
}

#[test]
fn a_refusal_leaves_the_head() {
    let mut head = power_on();
    word(&mut head, 0x1001);
    let before = head;
    assert_eq!(
        report(&mut head, &[1, 0]).map_err(|refusal| refusal.number),
        Err(2)
    );
    assert_eq!(head, before);
    head.busy = 1;
    assert_eq!(
        report(&mut head, &[1, 0]).map_err(|refusal| refusal.number),
        Err(1)
    );
}

#[test]
fn refusals_in_words() {
    let in_words = |plan: &[u8]| report(&mut power_on(), plan).unwrap_err().in_words(plan);
    assert_eq!(in_words(&[1]), "refused 2: fewer than 3 bytes (byte 0)");
    assert_eq!(
        in_words(&[1, 0, 4, 1, 15, 1, 18]),
        "refused 6: an order's code is not 1-17 (byte 5, order 2)"
    );
    let exposures = [&[1, 0, 130][..], &[1, 15].repeat(65)].concat();
    assert_eq!(
        in_words(&exposures),
        "refused 9: a 65th order begins (byte 131, order 65)"
    );
    let none = Refusal {
        number: 11,
        place: 0,
        count: None,
    };
    assert_eq!(none.in_words(&[]), "");
}
