//! One fault in one side, and what must come of it.

use compare::parts::PARTS;
use compare::random::Random;
use compare::reduce::Failure;
use compare::sides::Sides;
use std::time::Instant;

const SEED: u64 = 1;
/// Where the first order of a plan stands.
const FIRST_ORDER: usize = 3;

#[derive(Clone, Copy)]
pub struct Fault {
    pub name: &'static str,
    /// Puts the fault into one side.
    pub put: fn(&mut Sides),
    /// The part that must find it.
    pub part: &'static str,
    /// Whether this is the text of a case as short as can be.
    pub is_reduced: fn(&str) -> bool,
}

impl Fault {
    pub fn must_be_found(&self) {
        let mut sides = Sides::LIBRARY_AND_PAPER;
        (self.put)(&mut sides);
        let part = PARTS.iter().find(|part| part.name == self.part);
        let part = part.expect("the name of a part");
        let start = Instant::now();
        let counted = (part.compare)(&sides, &mut Random::new(SEED), 1);
        let name = self.name;
        let seconds = start.elapsed().as_secs_f32();
        println!("{name}: {}, {seconds:.3} s", part.name);
        match counted {
            Ok(count) => panic!("{name}: not found in {count} comparisons"),
            Err(Failure(text)) => assert!((self.is_reduced)(&text), "{name}: reduced to\n{text}"),
        }
    }
}

/// How many orders the plan of a case has.
pub fn orders(text: &str) -> usize {
    let line = text.lines().next().unwrap_or("");
    let (_, bytes) = line.split_once("plan").expect("a plan");
    let bytes = bytes.split_whitespace();
    let plan: Vec<usize> = bytes
        .map(|byte| usize::from_str_radix(byte, 16).expect("a byte"))
        .collect();
    let mut place = FIRST_ORDER;
    let mut count = 0;
    while place < plan.len() {
        place += 1 + plan[place];
        count += 1;
    }
    count
}

/// How many words the list of a case has.
pub fn listed_words(text: &str) -> usize {
    let line = text.lines().next().unwrap_or("");
    let words = line.strip_prefix("words").expect("a list");
    words.split_whitespace().count()
}

/// How many places of the state of a case are not as after power-on.
pub fn changes(text: &str) -> usize {
    text.matches(" = ").count()
}

/// How many words of the block of a case are not 0.
pub fn words_set(text: &str) -> usize {
    let (_, words) = text.split_once('[').expect("a block");
    let (words, _) = words.split_once(']').expect("a block");
    words.split(", ").filter(|&word| word != "0000").count()
}
