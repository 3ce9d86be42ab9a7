//! What the CCD operator observes of random runs: by the library's calls, and by
//! the paper's own observation.

use super::random_runs::RandomRuns;
use crate::random::Random;
use crate::reduce::Counted;
use crate::sides::Sides;

pub fn runs(sides: &Sides, random: &mut Random, times: u32) -> Counted {
    let runs = RandomRuns::new();
    let mut count = 0;
    for _ in 0..20_000 * times {
        count += runs.any(random).compare(sides)?;
    }
    Ok(count)
}
