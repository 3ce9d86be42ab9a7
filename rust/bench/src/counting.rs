//! Instructions per call, counted by valgrind's callgrind.

use crate::measured::{Row, Which};
use std::path::PathBuf;
use std::process::{Command, Stdio};
use std::{env, fs, io};

/// The argument that makes this program do one pass and nothing else.
pub const ONE_PASS: &str = "--one-pass";

/// Counts the instructions of one pass, within the measured functions only.
pub fn instructions(row: &Row, which: Which) -> io::Result<u64> {
    let counts = counts_file();
    let mut valgrind = Command::new("valgrind");
    valgrind
        .arg("--tool=callgrind")
        .arg(format!("--callgrind-out-file={}", counts.display()));
    for function in row.functions {
        valgrind.arg(format!("--toggle-collect={}{function}", row.prefix(which)));
    }
    valgrind
        .arg(env::current_exe()?)
        .args([ONE_PASS, row.name, which.name()])
        .stdout(Stdio::null())
        .stderr(Stdio::null());
    let status = valgrind.status()?;
    let text = fs::read_to_string(&counts)?;
    fs::remove_file(&counts)?;
    match total(&text) {
        Some(total) if status.success() && total > 0 => Ok(total),
        _ => Err(io::Error::other("callgrind counted nothing")),
    }
}

fn counts_file() -> PathBuf {
    env::temp_dir().join(format!("shabgozim-bench-{}", std::process::id()))
}

/// The whole count, as callgrind writes it.
fn total(text: &str) -> Option<u64> {
    let mut lines = text.lines();
    lines.find_map(|line| line.strip_prefix("totals: ")?.trim().parse().ok())
}
