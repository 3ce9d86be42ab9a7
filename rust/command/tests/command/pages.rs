//! Help, version and manual page.

use crate::run::*;
use std::path::Path;

const STORED: &str = include_str!("../../shabgozim.1");

fn printed(arguments: &[&str]) -> String {
    let ran = Folder::new().run(arguments, GOOD);
    let output = String::from_utf8(ran.stdout.clone()).expect("text");
    expect(ran, 0, &output, "");
    output
}

#[test]
fn pages_are_printed() {
    let version = concat!("shabgozim ", env!("CARGO_PKG_VERSION"), "\n");
    for (arguments, page) in [
        (&["-V"][..], version),
        (&["--version"], version),
        (&["list", "--version"], version),
        (&["-h"], &printed(&["--help"])),
        (&["report", "none", "-h", "-x"], &printed(&["--help"])),
        (&["--man", "--help"], STORED),
    ] {
        assert_eq!(printed(arguments), page, "{arguments:?}");
    }
}

#[test]
fn the_stored_manual_page_is_the_printed_one() {
    let same = printed(&["--man"]) == STORED;
    assert!(same, "store it anew: shabgozim --man > shabgozim.1");
}

#[test]
fn both_pages_have_every_section() {
    let (help, man) = (printed(&["--help"]), printed(&["--man"]));
    for title in [
        "Name",
        "Synopsis",
        "Description",
        "Subcommands",
        "Options",
        "Exit status",
        "Examples",
    ] {
        assert!(help.contains(&format!("{title}:\n  ")), "{title}");
        let heading = format!("\n.SH {}\n", title.to_uppercase());
        assert!(man.contains(&heading), "{title}");
    }
    assert!(help.lines().all(|line| line.len() < 80), "{help}");
}

/// The example without a file is run as help shows it.
#[test]
fn an_example_runs() {
    let help = printed(&["--help"]);
    let example = help.lines().find(|line| line.contains("printf"));
    let programs = Path::new(PROGRAM).parent().expect("a folder");
    let script = format!(
        "PATH=\"{}:$PATH\"\n{}",
        programs.display(),
        example.expect("an example")
    );
    let ran = Folder::new().shell(&script);
    expect(ran, 0, "tick word\n0 4000\nend 3\n", "");
}
