//! Wall-clock times, the two sides taking turns.

use crate::measured::{Prepared, Which};
use std::time::{Duration, Instant};

const REPEATS: usize = 401;
const SHORTEST: Duration = Duration::from_micros(250);

/// What the repeats gave.
pub struct Times {
    /// Median nanoseconds per call.
    pub library: f64,
    pub paper: f64,
    /// Library's time by paper's: median, first and third quartile.
    pub ratio: [f64; 3],
}

/// Times both sides by turns, after a pass of each.
pub fn times(prepared: &mut Prepared) -> Times {
    let passes = passes_needed(prepared);
    let (mut library, mut paper, mut ratios) = (Vec::new(), Vec::new(), Vec::new());
    for repeat in 0..REPEATS {
        let (first, second) = by_turns(prepared, passes, repeat % 2 == 0);
        library.push(first);
        paper.push(second);
        ratios.push(first / second);
    }
    Times {
        library: quantile(&mut library, 2),
        paper: quantile(&mut paper, 2),
        ratio: [2, 1, 3].map(|quarter| quantile(&mut ratios, quarter)),
    }
}

/// Nanoseconds per call of the library and of paper, either one first.
fn by_turns(prepared: &mut Prepared, passes: u32, library_first: bool) -> (f64, f64) {
    if library_first {
        let library = per_call(prepared, Which::Library, passes);
        return (library, per_call(prepared, Which::Paper, passes));
    }
    let paper = per_call(prepared, Which::Paper, passes);
    (per_call(prepared, Which::Library, passes), paper)
}

/// How many passes take long enough to be timed.
fn passes_needed(prepared: &mut Prepared) -> u32 {
    let mut passes = 1;
    while spent(prepared, Which::Paper, passes) < SHORTEST {
        passes *= 2;
    }
    passes
}

fn per_call(prepared: &mut Prepared, which: Which, passes: u32) -> f64 {
    let calls = f64::from(passes) * prepared.calls as f64;
    spent(prepared, which, passes).as_nanos() as f64 / calls
}

fn spent(prepared: &mut Prepared, which: Which, passes: u32) -> Duration {
    let start = Instant::now();
    for _ in 0..passes {
        std::hint::black_box(prepared.pass(which));
    }
    start.elapsed()
}

/// A quartile of the values.
fn quantile(values: &mut [f64], quarter: usize) -> f64 {
    values.sort_by(f64::total_cmp);
    values[(values.len() - 1) * quarter / 4]
}
