//! Lists that are inspected and lists that are refused.

use crate::run::*;

#[test]
fn a_sound_list_is_inspected() {
    let folder = Folder::new().with("my.list", LISTED.as_bytes());
    let inspected = inspected(LISTED.as_bytes());
    expect(folder.run(&["inspect", "my.list"], b""), 0, &inspected, "");
    let input = LISTED.as_bytes();
    expect(folder.run(&["inspect", "-"], input), 0, &inspected, "");
    expect(folder.run(&["inspect"], input), 0, &inspected, "");
}

#[test]
fn findings_have_status_1() {
    let folder = Folder::new().with("lost.list", LOST);
    let found = inspected(LOST);
    expect(folder.run(&["inspect", "lost.list"], b""), 1, &found, "");
    expect(folder.run(&["inspect"], LOST), 1, &found, "");
    let kept = folder.shell("\"$0\" inspect lost.list > seen && cat lost.list");
    expect(kept, 1, "", "");
    let missing = "INCOMPLETE MIRROR SET; received: SIN M, SIN L, COS M";
    assert!(found.contains(missing), "{found}");
}

#[test]
fn a_refused_list_prints_nothing() {
    for list in [
        &b""[..],
        b"tick word\n0 400\n",
        b"tick word\n1 4000\n1 8000\n",
        b"tick word\nend 0\n0 4000\n",
    ] {
        let folder = Folder::new().with("bad.list", list);
        let told = list_refusal("bad.list", list);
        expect(folder.run(&["inspect", "bad.list"], b""), 1, "", &told);
        let told = list_refusal("standard input", list);
        expect(folder.run(&["inspect"], list), 1, "", &told);
    }
}

#[test]
fn a_plan_is_listed_and_inspected() {
    let folder = Folder::new()
        .with("good.plan", GOOD)
        .with("bad.plan", TOO_SHORT);
    let inspected = inspected(LISTED.as_bytes());
    let both = folder.shell("\"$0\" list good.plan | \"$0\" inspect");
    expect(both, 0, &inspected, "");
    // Nothing is listed of a refused plan, and nothing is no list. The cause is
    // told first.
    let told = refusal("bad.plan", TOO_SHORT) + &list_refusal("standard input", b"");
    let neither = folder.shell("\"$0\" list bad.plan | \"$0\" inspect");
    expect(neither, 1, "", &told);
}
