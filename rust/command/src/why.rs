//! Why words do nothing at a tick of a list, a line for each.

use crate::failure::{DONE, REFUSED};
use crate::texts::Text;
use shabgozim::{read_list, upper_bytes, Diagnosis, State, TextList};

/// Where the kind begins in a line of the table of upper bytes, and what ends it.
const KIND_COLUMN: usize = 6;
const AFTER_KIND: &str = "  ";

/// A title and the lines of these words, each of which the head at this tick is
/// asked about by itself. The status tells whether one is ignored. A list that is
/// refused is so in words.
pub fn lines(list: &[u8], tick: u32, words: &[u16]) -> Result<Text, String> {
    let list = read_list(list).map_err(|refusal| refusal.in_words())?;
    let given = list.ticks.partition_point(|&at| at < tick);
    let head = head_at(&list, given, tick)?;
    let table = upper_bytes();
    let mut text = title(tick, given, list.words.len());
    let mut status = DONE;
    for &word in words {
        let why = head.why(word);
        text += &line(word, why, kind_name(&table, word));
        if !why.is_taken() {
            status = REFUSED;
        }
    }
    let bytes = text.into();
    Ok(Text { bytes, status })
}

/// A head from power-on that got so many words of the list, each at its tick, all
/// of them before this tick.
fn head_at(list: &TextList, given: usize, tick: u32) -> Result<State, String> {
    let timed = list.ticks.iter().copied().zip(list.words.iter().copied());
    let timed: Vec<(u32, u16)> = timed.take(given).collect();
    let mut head = State::power_on();
    // What is read is a list, so that no second refusal comes.
    let outcomes = head.list(&timed);
    outcomes.map_err(|refusal| format!("refused {}", refusal.number()))?;
    if let Some((last, _)) = timed.last() {
        // The tick of the last word has passed.
        pass(&mut head, tick - last - 1);
    }
    Ok(head)
}

/// Lets so many ticks pass. A tick changes nothing once the head is idle and at
/// rest.
fn pass(head: &mut State, ticks: u32) {
    for _ in 0..ticks {
        if !head.is_busy() && head.is_at_rest() {
            break;
        }
        head.tick();
    }
}

fn title(tick: u32, given: usize, count: usize) -> String {
    let words = if count == 1 { "word" } else { "words" };
    let columns = columns("word", "outcome", "kind", "why");
    format!("at tick {tick}, after {given} of {count} {words}\n{columns}")
}

fn line(word: u16, why: Diagnosis, kind: &str) -> String {
    let word = format!("{word:04X}");
    match why {
        Diagnosis::Taken => columns(&word, "taken", kind, ""),
        _ => {
            let outcome = format!("ignored {}", why.number());
            columns(&word, &outcome, kind, &why.to_string())
        }
    }
}

/// A line, in the columns of an inspection. What is empty leaves no spaces at its
/// end.
fn columns(word: &str, outcome: &str, kind: &str, why: &str) -> String {
    let line = format!("{word}  {outcome:10}  {kind:11}  {why}");
    format!("{}\n", line.trim_end())
}

/// The name of a word's kind in the table of upper bytes, which has a line for
/// each of them.
fn kind_name(table: &str, word: u16) -> &str {
    let byte = format!("{:02X} ", word >> 8);
    let line = table.lines().find(|line| line.starts_with(&byte));
    let kind = line.and_then(|line| line.get(KIND_COLUMN..));
    kind.and_then(|kind| kind.split(AFTER_KIND).next())
        .unwrap_or_default()
}
