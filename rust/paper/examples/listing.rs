//! Reads a plan from standard input and prints its listing.

use std::io::{self, Read};

use paper::listing::MOST_INPUT;

fn main() -> io::Result<()> {
    let mut input = Vec::new();
    // One byte more than is allowed tells a longer input.
    io::stdin()
        .take(MOST_INPUT as u64 + 1)
        .read_to_end(&mut input)?;
    print!("{}", paper::listing(&input));
    Ok(())
}
