//! Two operators on one head: whose words are whose, what is passed on, what the
//! CCD operator observes, and the lists of both merged.
//!
//! | module | idea |
//! |---|---|
//! | [`groups`] | the group of each kind of word |
//! | [`passing`] | words of the operators, passed on or not |
//! | `random_runs`, `watched` | runs with words of all three parties, and what the CCD operator observes of them |
//! | [`observation`], `run_case` | the observations of both sides |
//! | [`equal`], `pair_case` | the observations of two runs that differ in what is infrared |
//! | [`merging`], `merge_lists`, `merge_case` | two lists merged |
//! | [`merged_texts`], `texts_case` | two lists merged as text |
//! | [`refusals`] | refusals in words |
//! | [`unpacked`] | what the wrapper makes of all this |

pub mod equal;
pub mod groups;
mod merge_case;
mod merge_lists;
pub mod merged_texts;
pub mod merging;
pub mod observation;
mod pair_case;
pub mod passing;
mod random_runs;
pub mod refusals;
mod run_case;
mod texts_case;
pub mod unpacked;
mod watched;
