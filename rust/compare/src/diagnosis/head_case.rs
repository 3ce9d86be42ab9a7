//! The library's answer about one word compared with what its own head does, and
//! made shorter.

use super::tried_head::TriedHead;
use crate::reduce::{failure, Case, Counted};
use crate::sides::Sides;
use crate::states;
use crate::step_case::less_data;
use std::fmt;

/// One word in one state.
struct HeadCase {
    state: Vec<u16>,
    word: u16,
}

impl Case for HeadCase {
    fn difference(&self, sides: &Sides) -> Option<String> {
        let answer = (sides.library.why)(&self.state, self.word);
        match TriedHead::new(&sides.library, &self.state).why(self.word) {
            Some(found) if found == answer => None,
            Some(found) => Some(format!("answer: library {answer:#X}, its head {found:#X}")),
            None => Some("its head takes other mirror words than the one that is due".into()),
        }
    }

    fn shorter(&self) -> Vec<HeadCase> {
        let word = self.word;
        let states = states::shorter_or_sooner(&self.state).into_iter();
        let nearer = states.map(|state| HeadCase { state, word });
        let lesser = less_data(word).into_iter().map(|word| HeadCase {
            state: self.state.clone(),
            word,
        });
        nearer.chain(lesser).collect()
    }
}

impl fmt::Display for HeadCase {
    fn fmt(&self, out: &mut fmt::Formatter) -> fmt::Result {
        let state = states::describe(&self.state);
        write!(out, "why word {:04X} from {state}", self.word)
    }
}

/// Compares the library's answers about words, all in the same state, with what
/// its head does.
pub fn tried(sides: &Sides, state: &[u16], words: &[u16]) -> Counted {
    let mut head = TriedHead::new(&sides.library, state);
    for &word in words {
        if head.why(word) != Some((sides.library.why)(state, word)) {
            let state = state.to_vec();
            return Err(failure(sides, HeadCase { state, word }));
        }
    }
    Ok(words.len() as u64)
}
