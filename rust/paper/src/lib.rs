//! The VIRTIS-M command words, the PEM-M head, lists of timed words, stored
//! plans and the two housekeeping blocks, written from document 01 and
//! document 02's requests P1 and P3 alone; reports and refusals in words from
//! their description and the stored reports; lists read from text and inspected
//! from their description; the second decoder from document 02's request P2, and
//! the table of upper bytes from its description; the high-resolution head from
//! document 000's section 4.2 and document 02's request P5, and its picture from
//! its description; two operators on one head and their lists merged from
//! document 02's request P6, and the merged text from its description; why a
//! word did nothing from document 02's request P7, and its packed form and its
//! lines from their description.
//!
//! | module | idea |
//! |---|---|
//! | [`words`] | the 28 kinds of command word |
//! | [`upper_byte`] | words read by their upper byte, and the table for it |
//! | [`state`] | the numbers a head holds and their ranges |
//! | [`head`] | what the head makes of a word and of a tick |
//! | [`list`](mod@list) | a list of timed words in one call |
//! | [`plan`] | stored plans, taken apart order by order |
//! | [`translate`](mod@translate) | a plan turned into timed words |
//! | [`reading`] | a plan read without any words |
//! | [`run`](mod@run) | a head driven through timed words, tick by tick |
//! | [`blocks`] | the two housekeeping blocks, written and read |
//! | [`listing`](mod@listing) | the printed form of a translation |
//! | [`text_list`] | a list read from its printed form |
//! | [`inspection`](mod@inspection) | a list word by word, laid out for reading |
//! | [`report`](mod@report) | what a head does with a plan, laid out for reading |
//! | `in_words` | a refusal of a plan in words |
//! | [`pem_h`] | the high-resolution head: requests, pixel map, picture |
//! | [`operators`] | two operators: their words, and what one of them observes |
//! | [`merge`](mod@merge) | two operators' lists merged by tick |
//! | [`why`](mod@why) | why a word did nothing |

#![forbid(unsafe_code)]

pub mod blocks;
pub mod head;
mod in_words;
pub mod inspection;
pub mod list;
pub mod listing;
pub mod merge;
pub mod operators;
pub mod pem_h;
pub mod plan;
pub mod reading;
pub mod report;
pub mod run;
pub mod state;
pub mod text_list;
pub mod translate;
pub mod upper_byte;
pub mod why;
pub mod words;

pub use blocks::{
    read_ccd, read_ir, write_ccd, write_ir, BlockRefusal, CcdMeaning, IrCallerBits, IrMeaning,
};
pub use head::{receive, tick, word, Act, Cause, Outcome, Task, Ticked};
pub use inspection::{inspection, Inspection};
pub use list::list;
pub use listing::listing;
pub use merge::{merge, merge_answer, merge_texts, operator_refusal};
pub use merge::{MergeAnswer, Merged, TextsRefusal};
pub use operators::{busy_ticks, group_number, observe, pass_on};
pub use operators::{BusyTicks, CcdRegisters, Given, Group, Observation, Seen, Tick};
pub use plan::{CoverMove, Order, Refusal};
pub use reading::{read_plan, LoggedAct, Reading};
pub use report::report;
pub use run::{run, Checks, Run};
pub use state::{in_range, power_on, ErrorFlags, MirrorSet, Settings, State};
pub use text_list::{read_list, TextList, TextRefusal};
pub use translate::{translate, Translated, Translation};
pub use upper_byte::{decode_by_byte, upper_bytes};
pub use why::{explanation, why, why_answer, Why};
pub use words::{decode, encode, Decoded, Kind};
