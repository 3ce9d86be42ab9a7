//! Plans that are accepted and plans that are refused.

use crate::run::*;

#[test]
fn a_plan_is_listed() {
    let folder = Folder::new().with("p.plan", GOOD);
    expect(folder.run(&["list", "p.plan"], b""), 0, LISTED, "");
    expect(folder.run(&["list", "-"], GOOD), 0, LISTED, "");
    expect(folder.run(&["list"], GOOD), 0, LISTED, "");
}

#[test]
fn a_plan_is_reported() {
    let folder = Folder::new().with("p.plan", GOOD);
    let report = reports(&[GOOD]);
    expect(folder.run(&["report", "p.plan"], b""), 0, &report, "");
    expect(folder.run(&["report", "-"], GOOD), 0, &report, "");
    expect(folder.run(&["report"], GOOD), 0, &report, "");
}

#[test]
fn plans_are_reported_on_one_head() {
    let folder = Folder::new().with("p.plan", GOOD).with("cover.plan", COVER);
    // The cover still moves when the second plan is given.
    let arguments = ["report", "cover.plan", "-", "cover.plan"];
    let report = reports(&[COVER, GOOD, COVER]);
    expect(folder.run(&arguments, GOOD), 0, &report, "");
    assert_ne!(report, reports(&[COVER]) + &reports(&[GOOD, COVER]));
}

#[test]
fn a_refused_plan_prints_nothing() {
    for plan in REFUSED {
        let folder = Folder::new().with("p.plan", plan);
        let named = refusal("p.plan", plan);
        let unnamed = refusal("standard input", plan);
        for subcommand in ["list", "report"] {
            expect(folder.run(&[subcommand, "p.plan"], GOOD), 1, "", &named);
            expect(folder.run(&[subcommand, "-"], plan), 1, "", &unnamed);
            expect(folder.run(&[subcommand], plan), 1, "", &unnamed);
        }
    }
}

#[test]
fn refusals_are_in_words() {
    assert_eq!(
        refusal("p", TOO_SHORT),
        "shabgozim: p: refused 2: fewer than 3 bytes (byte 0)\n"
    );
    let wrong_version = refusal("p", WRONG_VERSION);
    assert!(wrong_version.starts_with("shabgozim: p: refused 3: "));
    let wrong_length = refusal("p", WRONG_LENGTH);
    assert!(wrong_length.starts_with("shabgozim: p: refused 4: "));
    assert_eq!(
        refusal("p", FAULTY_SECOND),
        "shabgozim: p: refused 8: a field is out of range (byte 9, order 2)\n"
    );
}

#[test]
fn a_refused_plan_ends_the_reports() {
    for plan in REFUSED {
        let folder = Folder::new().with("good.plan", GOOD).with("bad.plan", plan);
        let arguments = ["report", "good.plan", "-", "bad.plan", "good.plan", "none"];
        let before = reports(&[GOOD, COVER]);
        let told = refusal("bad.plan", plan);
        expect(folder.run(&arguments, COVER), 1, &before, &told);
        let first = ["report", "bad.plan", "good.plan"];
        expect(folder.run(&first, b""), 1, "", &told);
    }
}

#[test]
fn a_refusal_stops_a_shell() {
    let folder = Folder::new()
        .with("good.plan", GOOD)
        .with("bad.plan", TOO_SHORT);
    let sent = folder.shell("\"$0\" list good.plan > list && cat list");
    expect(sent, 0, LISTED, "");
    let kept = folder.shell("\"$0\" list bad.plan > list && cat list");
    expect(kept, 1, "", &refusal("bad.plan", TOO_SHORT));
}

#[test]
fn a_second_standard_input_is_empty() {
    let folder = Folder::new();
    let told = refusal("standard input", b"");
    let ran = folder.run(&["report", "-", "-"], GOOD);
    expect(ran, 1, &reports(&[GOOD]), &told);
}
