//! The command line: which parts run, what is printed, and the exit status.

use crate::parts::Part;
use crate::random::Random;
use crate::reduce::Failure;
use crate::sides::Sides;
use std::time::{Instant, SystemTime, UNIX_EPOCH};

/// Exit statuses.
pub const NO_DIFFERENCE: u8 = 0;
pub const FAILED: u8 = 1;
pub const WRONG_USAGE: u8 = 2;

/// How much of the random comparisons a long run makes.
const LONG: u32 = 40;

struct Options {
    seed: u64,
    times: u32,
    /// The index of the only part to run.
    only: Option<usize>,
}

/// Runs the parts as the arguments say; gives the exit status.
pub fn run(parts: &[Part], arguments: impl Iterator<Item = String>) -> u8 {
    let Some(options) = Options::read(parts, arguments) else {
        eprint!("{}", usage(parts));
        return WRONG_USAGE;
    };
    println!("seed {}", options.seed);
    match options.compare(parts) {
        Ok(()) => NO_DIFFERENCE,
        Err(text) => {
            println!("{text}");
            FAILED
        }
    }
}

fn usage(parts: &[Part]) -> String {
    let names = parts.iter().map(|part| format!("  {}\n", part.name));
    let names: String = names.collect();
    format!("usage: compare [--seed N] [--long] [--only PART]\nparts:\n{names}")
}

impl Options {
    /// Nothing where an argument is not one of those in the usage.
    fn read(parts: &[Part], mut arguments: impl Iterator<Item = String>) -> Option<Options> {
        let mut options = Options {
            seed: seed_from_clock(),
            times: 1,
            only: None,
        };
        while let Some(argument) = arguments.next() {
            match argument.as_str() {
                "--long" => options.times = LONG,
                "--seed" => options.seed = arguments.next()?.parse().ok()?,
                "--only" => options.only = Some(index(parts, &arguments.next()?)?),
                _ => return None,
            }
        }
        Some(options)
    }

    /// Why the run fails: a difference, or nothing compared.
    fn compare(&self, parts: &[Part]) -> Result<(), String> {
        let start = Instant::now();
        let mut total = 0;
        for (index, part) in parts.iter().enumerate() {
            if self.only.is_none_or(|only| only == index) {
                total += self.compare_part(index, part)?;
            }
        }
        if total == 0 {
            return Err("NOTHING COMPARED".into());
        }
        print_count("no difference", total, start);
        Ok(())
    }

    fn compare_part(&self, index: usize, part: &Part) -> Result<u64, String> {
        let start = Instant::now();
        let mut random = Random::new(self.seed.wrapping_add((index as u64) << 48));
        let counted = (part.compare)(&Sides::LIBRARY_AND_PAPER, &mut random, self.times);
        match counted {
            Err(Failure(text)) => Err(format!("DIFFERENCE, reduced:\n{text}")),
            Ok(0) => Err(format!("NOTHING COMPARED: {}", part.name)),
            Ok(count) => {
                print_count(part.name, count, start);
                Ok(count)
            }
        }
    }
}

fn index(parts: &[Part], name: &str) -> Option<usize> {
    parts.iter().position(|part| part.name == name)
}

fn seed_from_clock() -> u64 {
    let now = SystemTime::now().duration_since(UNIX_EPOCH);
    now.map_or(1, |now| now.as_secs())
}

fn print_count(name: &str, count: u64, start: Instant) {
    let seconds = start.elapsed().as_secs_f64();
    println!("{name:26} {count:11} comparisons {seconds:7.2} s");
}
