//! What is measured: the same calls made to either side.

mod blocks;
mod head;
mod lists;
mod maps;
mod merges;
mod plans;
mod words;

pub use blocks::{ReadBlocks, WrittenBlocks};
pub use head::{AskedWords, GivenWords, MixedRun, PassedWords, Ticks};
pub use lists::Lists;
pub use maps::Maps;
pub use merges::Merges;
pub use plans::Translations;
pub use words::{DecodedWords, Decoder};

use compare::random::Random;
use compare::sides::Side;

/// Calls to some functions of a side.
pub trait Workload {
    /// How many calls one pass makes.
    fn calls(&self) -> usize;

    /// Makes every call once; the sum tells that both sides answer alike.
    fn pass<S: Side>(&mut self) -> u64;
}

/// Puts items in a random order, so that no call tells which one follows.
fn shuffle<T>(random: &mut Random, items: &mut [T]) {
    for last in (1..items.len()).rev() {
        items.swap(last, random.below(last + 1));
    }
}
