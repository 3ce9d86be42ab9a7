//! The verified library compared with the implementation written from
//! document 01.
//!
//! | module | idea |
//! |---|---|
//! | [`sides`] | the two implementations behind one interface |
//! | [`random`], [`states`], [`words`], [`orders`] | what they are given |
//! | [`buffer`] | lent buffers with margins |
//! | [`reduce`] | a failing case made short |
//! | [`parts`] | the list of all comparisons |
//! | [`command`] | the command line |
//! | [`pem_h`] | the comparisons of the high-resolution head |
//! | [`operators`] | the comparisons of two operators on one head |
//! | [`diagnosis`] | the comparisons of why a word did nothing |
//! | the others | the comparisons |

pub mod blocks;
pub mod buffer;
pub mod codec;
pub mod command;
pub mod demand3;
pub mod diagnosis;
mod inspection_case;
pub mod inspections;
mod limit_gaps;
mod limit_plans;
pub mod limits;
mod line_case;
mod list_case;
pub mod list_limits;
pub mod listed_plans;
pub mod lists;
pub mod operators;
pub mod orders;
pub mod parts;
pub mod pem_h;
pub mod plan_answer;
mod plan_case;
pub mod plans;
pub mod random;
mod random_lists;
mod random_plans;
mod random_texts;
pub mod reduce;
mod refusal_case;
pub mod refusals;
mod report_case;
pub mod reports;
mod room;
mod run;
mod same;
mod shorter_lists;
mod shorter_texts;
pub mod sides;
pub mod states;
mod step_case;
pub mod steps;
mod text_case;
mod text_form;
mod text_limits;
pub mod text_lists;
pub mod unpacked;
pub mod upper_bytes;
pub mod words;
