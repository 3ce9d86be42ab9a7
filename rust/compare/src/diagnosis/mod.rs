//! Why a word did nothing: the rule that stopped it, and the line that tells it.
//!
//! | module | idea |
//! |---|---|
//! | [`why`] | the answers of both sides |
//! | [`by_head`], `head_case`, `tried_head` | the library's answers, and what its own head does |
//! | [`explanations`], `explanation_case` | answers in words |
//! | [`unpacked`] | what the wrapper makes of all this |

pub mod by_head;
mod explanation_case;
pub mod explanations;
mod head_case;
mod tried_head;
pub mod unpacked;
pub mod why;
