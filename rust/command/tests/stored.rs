//! The stored texts of the examples: `NAME.report` is that of `NAME.plan`, or of
//! the plans that the one line of `NAME.plans` names; `NAME.inspection` that of
//! `NAME.list`, or the refusal in words; `NAME.pbm` is the picture of `NAME.map`,
//! and `NAME.refusal` its refusal in words. In the folder `merge` of the lists
//! `merged.list` is what `ccd.list` and `infrared.list` give together. The table
//! of upper bytes is stored with the program `upper_bytes`.

use std::fs;
use std::path::{Path, PathBuf};
use std::process::{Command, Output};
use std::slice;

const PLANS: &str = concat!(env!("CARGO_MANIFEST_DIR"), "/../../examples/plans");
const LISTS: &str = concat!(env!("CARGO_MANIFEST_DIR"), "/../../examples/lists");
const MERGE: &str = concat!(env!("CARGO_MANIFEST_DIR"), "/../../examples/lists/merge");
const MAPS: &str = concat!(env!("CARGO_MANIFEST_DIR"), "/../../examples/maps");
const TABLE: &str = concat!(
    env!("CARGO_MANIFEST_DIR"),
    "/../../crates/upper_bytes/stdout"
);
const README: &str = concat!(env!("CARGO_MANIFEST_DIR"), "/../../README.md");
const MOST_COLUMNS: usize = 100;
const LEAST_REPORTS: usize = 4;
const LEAST_INSPECTIONS: usize = 14;
const LEAST_MAPS: usize = 3;
/// What the last line of a sound list's inspection says.
const NOT_FOUND: [&str; 3] = [
    ", ignored 0,",
    ", with an incomplete mirror set 0,",
    ", while something moved 0\n",
];

#[test]
fn reports() {
    let reports = stored(PLANS, "report");
    for report in &reports {
        let text = fs::read_to_string(report).expect("a report is text");
        let ran = run(PLANS, "report", &plans(report));
        expect(report, ran, 0, &text, "");
        has_no_wide_line(report, &text);
    }
    assert!(reports.len() >= LEAST_REPORTS, "{} reports", reports.len());
}

#[test]
fn inspections() {
    let inspections = stored(LISTS, "inspection");
    for inspection in &inspections {
        let text = fs::read_to_string(inspection).expect("an inspection is text");
        let name = name(&inspection.with_extension("list"));
        let ran = run(LISTS, "inspect", slice::from_ref(&name));
        match text.starts_with("refused ") {
            true => {
                let told = format!("shabgozim: {name}: {text}");
                expect(inspection, ran, 1, "", &told);
            }
            false => expect(inspection, ran, status(&text), &text, ""),
        }
        has_no_wide_line(inspection, &text);
    }
    let count = inspections.len();
    assert!(count >= LEAST_INSPECTIONS, "{count} inspections");
}

#[test]
fn merged_list() {
    let path = Path::new(MERGE).join("merged.list");
    let list = fs::read_to_string(&path).expect("a list is text");
    let names = ["ccd.list", "infrared.list"].map(String::from);
    expect(&path, run(MERGE, "merge", &names), 0, &list, "");
}

#[test]
fn pictures() {
    let maps = stored(MAPS, "map");
    for map in &maps {
        let name = name(map);
        let ran = run(MAPS, "pixel-map", slice::from_ref(&name));
        match fs::read_to_string(map.with_extension("refusal")) {
            Ok(refusal) => expect(map, ran, 1, "", &format!("shabgozim: {name}: {refusal}")),
            Err(_) => {
                let picture = fs::read(map.with_extension("pbm")).expect("a map has its picture");
                assert!(ran.status.success() && ran.stderr.is_empty(), "{name}");
                assert!(ran.stdout == picture, "{name}");
            }
        }
    }
    assert!(maps.len() >= LEAST_MAPS, "{} maps", maps.len());
}

#[test]
fn table_of_upper_bytes() {
    let path = Path::new(TABLE);
    let table = fs::read_to_string(path).expect("the table is text");
    expect(path, run(LISTS, "upper-bytes", &[]), 0, &table, "");
    has_no_wide_line(path, &table);
    // A reader finds a byte's line by its first two letters.
    let lines = table.lines().skip(1).filter(|line| !line.is_empty());
    let bytes: Vec<&str> = lines.map(|line| &line[..2]).collect();
    let expected: Vec<String> = (0..=0xFF).map(|byte| format!("{byte:02X}")).collect();
    assert_eq!(bytes, expected);
}

#[test]
fn the_readme_shows_stored_texts() {
    let readme = fs::read_to_string(README).expect("the README is there");
    for (folder, name) in [
        (PLANS, "example.report"),
        (LISTS, "fourth_missing.inspection"),
    ] {
        let text = fs::read_to_string(Path::new(folder).join(name)).expect("a stored text");
        assert!(readme.contains(&format!("```\n{text}```\n")), "{name}");
    }
}

#[test]
fn the_readme_shows_why_words_do_nothing() {
    let readme = fs::read_to_string(README).expect("the README is there");
    let mut shown = String::new();
    for call in [
        &["46", "600F", "A000", "E0F8", "C001", "1201", "3800"][..],
        &["21", "D801", "C001", "C000"],
    ] {
        let list = "examples/lists/ignored.list";
        let line = format!("shabgozim why {list} {}\n", call.join(" "));
        assert!(readme.contains(&line), "{line}");
        let names = [&["ignored.list"], call].concat();
        let names: Vec<String> = names.into_iter().map(String::from).collect();
        let ran = run(LISTS, "why", &names);
        shown += &String::from_utf8_lossy(&ran.stdout);
    }
    assert!(readme.contains(&format!("```\n{shown}```\n")), "{shown}");
}

/// 1 where the inspection has findings.
fn status(inspection: &str) -> i32 {
    let sound = NOT_FOUND.iter().all(|end| inspection.contains(end));
    i32::from(!sound)
}

/// The stored texts in a folder.
fn stored(folder: &str, extension: &str) -> Vec<PathBuf> {
    let entries = fs::read_dir(folder).expect("the folder of examples is there");
    let paths = entries.map(|entry| entry.expect("an entry").path());
    let has_extension = |path: &PathBuf| path.extension().is_some_and(|found| found == extension);
    paths.filter(has_extension).collect()
}

/// The name of a file in its folder.
fn name(path: &Path) -> String {
    let name = path.file_name().and_then(|name| name.to_str());
    name.expect("a name").into()
}

fn run(folder: &str, subcommand: &str, names: &[String]) -> Output {
    let mut command = Command::new(env!("CARGO_BIN_EXE_shabgozim"));
    command.arg(subcommand).args(names).current_dir(folder);
    command.output().expect("the program runs")
}

fn expect(stored: &Path, ran: Output, status: i32, output: &str, errors: &str) {
    let path = stored.display();
    let printed = String::from_utf8_lossy(&ran.stdout);
    let told = String::from_utf8_lossy(&ran.stderr);
    assert_eq!(ran.status.code(), Some(status), "{path}: {told}");
    assert!(printed == output, "{path}: {printed}");
    assert_eq!(told, errors, "{path}");
}

fn has_no_wide_line(stored: &Path, text: &str) {
    let mut lines = text.lines();
    let too_wide = lines.find(|line| line.chars().count() > MOST_COLUMNS);
    assert_eq!(too_wide, None, "{}", stored.display());
}

/// The names of a report's plans.
fn plans(report: &Path) -> Vec<String> {
    let single = report.with_extension("plan");
    let several = report.with_extension("plans");
    let both = single.exists() && several.exists();
    assert!(!both, "{} has a plan and plans", report.display());
    if single.exists() {
        return vec![single.display().to_string()];
    }
    let line = fs::read_to_string(several).expect("a report has its plans");
    assert_eq!(line.lines().count(), 1, "{}", report.display());
    line.split_whitespace().map(String::from).collect()
}
