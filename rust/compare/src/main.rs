//! Compares the library with the implementation written from document 01.
//!
//! `compare [--seed N] [--long] [--only PART]`: some hundred million
//! comparisons, or many more. It stops at the first difference and prints its
//! shortest case. The exit status is 0 when both sides agree, 1 when they
//! differ or nothing was compared, and 2 when an argument is not known.

use compare::command;
use compare::parts::PARTS;
use std::process::ExitCode;

fn main() -> ExitCode {
    ExitCode::from(command::run(PARTS, std::env::args().skip(1)))
}
