//! Measures the library against the implementation written from document 01,
//! both behind the same interface, and prints the table of docs/PERFORMANCE.md.

mod counting;
mod measured;
mod plain_list;
mod plain_map;
mod plain_merge;
mod timing;
mod workloads;

use counting::ONE_PASS;
use measured::{Row, Which, ROWS};
use std::io;
use std::process::ExitCode;
use timing::Times;

fn main() -> ExitCode {
    let words: Vec<String> = std::env::args().skip(1).collect();
    let words: Vec<&str> = words.iter().map(String::as_str).collect();
    match words[..] {
        [] => report(),
        [ONE_PASS, name, which] => one_pass(name, which),
        _ => {
            eprintln!("usage: bench");
            ExitCode::from(2)
        }
    }
}

fn one_pass(name: &str, which: &str) -> ExitCode {
    let which = Which::BOTH.into_iter().find(|it| it.name() == which);
    let row = ROWS.iter().find(|row| row.name == name);
    let (Some(which), Some(row)) = (which, row) else {
        return ExitCode::from(2);
    };
    std::hint::black_box((row.prepare)().pass(which));
    ExitCode::SUCCESS
}

const HEADING: &str = "\
# Performance

The table is made by `cargo run --release -p bench` in `rust/`, which builds both sides for release and measures them in one run on one machine.

`paper` is document 01 written out in Rust without proofs (`rust/paper`). Both sides stand behind the same interface: the state is an array of
35 numbers, read and stored by every call, and no call is inlined. A ratio above 1 means that the library takes more than `paper`.

`paper`'s own list goes tick by tick. In the rows about lists its place is taken by plain Rust that does what the library is free to do
(`rust/bench/src/plain_list.rs`): the state's range is judged once for a list, and a gap of any length passes at once. In the rows about pixel maps
it is taken by plain Rust that counts the ones of each byte (`rust/bench/src/plain_map.rs`); `paper` visits every pixel. In the row about merging it is taken
by plain Rust that goes through both lists (`rust/bench/src/plain_merge.rs`); `paper` filters and sorts.

Instructions per call are counted inside the measured functions by callgrind and are the same in every run. The time ratio is the median, with
quartiles, over repeats in which the two sides take turns. Nanoseconds are for scale only.

| call | instructions: library | paper | ratio | time ratio (quartiles) | ns: library | paper |
|---|---:|---:|---:|---:|---:|---:|";

/// What the calls of a row cost, by instructions of each side and by time.
struct Costs {
    library: f64,
    paper: f64,
    times: Times,
}

fn report() -> ExitCode {
    println!("{HEADING}");
    let mut words = Vec::new();
    for row in ROWS {
        match costs(row) {
            Ok(costs) => {
                println!("{}", line(row, &costs));
                words.extend(words_line(row, &costs));
            }
            Err(error) => {
                eprintln!("{}: {error}", row.name);
                return ExitCode::FAILURE;
            }
        }
    }
    println!("\nInstructions for each word of a list, its share of the call:\n");
    words.iter().for_each(|line| println!("{line}"));
    ExitCode::SUCCESS
}

fn costs(row: &Row) -> io::Result<Costs> {
    let mut prepared = (row.prepare)();
    if prepared.pass(Which::Library) != prepared.pass(Which::Paper) {
        return Err(io::Error::other("the two sides answer differently"));
    }
    let per_call = |count| count as f64 / prepared.calls as f64;
    Ok(Costs {
        library: per_call(counting::instructions(row, Which::Library)?),
        paper: per_call(counting::instructions(row, Which::Paper)?),
        times: timing::times(&mut prepared),
    })
}

/// A line of the table.
fn line(row: &Row, costs: &Costs) -> String {
    let (library, paper, times) = (costs.library, costs.paper, &costs.times);
    let [median, first, third] = times.ratio;
    format!(
        "| {} | {library:.1} | {paper:.1} | {:.2} | {median:.2} ({first:.2}-{third:.2}) | {:.1} | {:.1} |",
        row.name,
        library / paper,
        times.library,
        times.paper,
    )
}

/// What a word costs in a call that is given several.
fn words_line(row: &Row, costs: &Costs) -> Option<String> {
    let words = row.words? as f64;
    let (library, rust) = (costs.library / words, costs.paper / words);
    Some(format!(
        "- {}: library {library:.1}, plain Rust {rust:.1}",
        row.name
    ))
}
