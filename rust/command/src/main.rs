//! `shabgozim`: lists plans, reports what the head does with them, inspects and
//! merges lists, tells why words do nothing, prints the table of upper bytes,
//! shows pixel maps, and reads requests.
//!
//! | module | idea |
//! |---|---|
//! | `description` | subcommands, options, statuses and examples, as data |
//! | `sections`, `help`, `man` | the description in sections, as plain text, and as a manual page |
//! | `arguments` | what is asked for |
//! | `source` | where a plan, a list or a map comes from, and its bytes |
//! | `texts` | the texts of plans in a row, of a list, of two inputs, and a map's picture |
//! | `merge` | the lists of the two operators, merged into one |
//! | `why` | why words do nothing at a tick of a list, a line for each |
//! | `requests` | what the words of requests mean, a line for each |
//! | `failure` | why something was not done, told on standard error |
//! | `descriptors` | standard input, output and error, as they were given |

#![no_main]

mod arguments;
mod description;
mod descriptors;
mod failure;
mod help;
mod man;
mod merge;
mod requests;
mod sections;
mod source;
mod texts;
mod why;

use arguments::Asked;
use descriptors::Descriptors;
use failure::{Failure, DONE};
use std::env;
use std::ffi::{c_char, c_int};
use texts::{Text, Texts};

/// Where the C library begins the program; `descriptors` says why this is not
/// Rust's `main`. On Linux with glibc std knows the arguments all the same.
#[no_mangle]
pub extern "C" fn main(_count: c_int, _arguments: *const *const c_char) -> c_int {
    run().unwrap_or_else(Failure::tell)
}

/// The exit status, or why nothing was printed.
fn run() -> Result<c_int, Failure> {
    let descriptors = Descriptors::take()?;
    let done = match arguments::read(env::args_os().skip(1))? {
        Asked::Show(text) => Texts::of(Text::done(text())),
        Asked::Texts(inputs, sources) => texts::of_all(inputs, &sources, &descriptors),
        Asked::Pair(pair, sources) => Texts::of(texts::of_pair(pair, &sources, &descriptors)?),
        Asked::Words(text, words) => Texts::of(text(&words)),
        Asked::AtTick(at_tick, list, tick, words) => {
            let text = texts::of_tick(at_tick, &list, tick, &words, &descriptors);
            Texts::of(text?)
        }
    };
    Ok(finish(done, descriptors))
}

/// Prints what is complete, tells what failed, and closes the output; gives the
/// exit status. A program that reads the output through a pipe goes on when it is
/// closed, so that its message comes after the one that explains it.
fn finish(done: Texts, descriptors: Descriptors) -> c_int {
    let printed = descriptors.print(&done.bytes);
    let written = printed.is_ok();
    let told = tell([printed.err(), done.failure]);
    let closed = if written { descriptors.close() } else { Ok(()) };
    told.max(tell([closed.err()])).max(done.status)
}

/// The exit status of what failed, when it is told.
fn tell(failures: impl IntoIterator<Item = Option<Failure>>) -> c_int {
    let told = failures.into_iter().flatten().map(Failure::tell);
    told.max().unwrap_or(DONE)
}
