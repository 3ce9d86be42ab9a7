//! Safe functions and plain types over the C interface of the verified
//! library for the VIRTIS-M instrument head, and for the requests and the pixel
//! map of the high-resolution head.
//!
//! | item | idea |
//! |---|---|
//! | [`decode`], [`encode`], [`kind`] | the 28 kinds of command word |
//! | [`decode_by_byte`], [`upper_bytes`] | a word decoded by its upper byte; the table of upper bytes |
//! | [`State`], [`place`] | a head's state, and what it makes of words and ticks |
//! | [`State::why`], [`Diagnosis`] | why a word did nothing |
//! | [`State::list`], [`ListRefusal`] | a list of timed words in one call |
//! | [`schedule`], [`translate`] | a stored plan turned into timed words |
//! | [`listing`], [`State::report`], [`PlanRefusal::in_words`] | a plan listed, its simulation reported, a refusal in words |
//! | [`read_list`], [`inspection`], [`ListTextRefusal::in_words`] | a list read from text and inspected |
//! | [`State::pass_on`], [`Operator`], [`Group`] | a word of one of two operators passed on to the head |
//! | [`merge`], [`merge_texts`], [`entry`] | the lists of two operators merged by tick |
//! | [`write_ir`], [`read_ir`], [`write_ccd`], [`read_ccd`] | the two housekeeping blocks |
//! | [`decode_request`], [`encode_request`], [`Request`], [`Meaning`] | the 32 requests of the high-resolution head |
//! | [`PixelMap`], [`MapRefusal`] | its pixel map: lighted pixels, readout time, picture |
//! | [`raw`] | the same functions over slices, answers still packed |
//!
//! Every answer is the one that document 01 gives (for lists document 02's
//! request P1, for upper bytes its request P2, for the high-resolution head its
//! request P5, for two operators its request P6, for why a word did nothing its
//! request P7), for any input; what the library proves holds of the C functions,
//! and this crate only unpacks. Single pixels of a [`PixelMap`], the fields of
//! [`CoverParameter`] and [`PemMode`], and the tick and word of an [`entry`] are
//! found by this crate.
//!
//! # Examples
//!
//! ```
//! use shabgozim::{place, Act, Outcome, State};
//!
//! let mut head = State::power_on();
//! // The mirror pair changes at the fourth word alone.
//! for word in [0x2011, 0xA000, 0x600F] {
//!     assert_eq!(head.word(word), Outcome::Taken(Act::None));
//!     assert_eq!(head.numbers[place::SINE], 0);
//! }
//! head.word(0xE0F8);
//! assert_eq!(head.numbers[place::SINE], 0x1100);
//! assert!(!head.is_at_rest());
//! ```
//!
//! A list of words, each with its tick, goes in by one call:
//!
//! ```
//! use shabgozim::{Act, Cause, ListRefusal, Outcome, State};
//!
//! let mut head = State::power_on();
//! let outcomes = head.list(&[(0, 0x4000), (2, 0xD801), (3, 0xD801)]).unwrap();
//! assert_eq!(outcomes[0], Outcome::Taken(Act::Housekeeping));
//! // The head is busy for three ticks.
//! assert_eq!(outcomes[1], Outcome::Ignored(Cause::WrongTime));
//! assert_eq!(outcomes[2], Outcome::Taken(Act::None));
//! // Ticks must rise.
//! assert_eq!(head.list(&[(5, 0), (5, 0)]), Err(ListRefusal::NoList));
//! ```
//!
//! Why a word did nothing, without giving it to the head again:
//!
//! ```
//! use shabgozim::{kind, Diagnosis, State};
//!
//! let mut head = State::power_on();
//! head.word(0x2011);
//! // COS L comes where SIN L was due.
//! let why = head.why(0xE0F8);
//! assert_eq!(why, Diagnosis::OutOfTurn { due: kind::SIN_L });
//! assert_eq!(why.to_string(), "a mirror word out of turn: SIN L was due");
//! assert!(head.why(0xA000).is_taken());
//! ```
//!
//! A word of each of two operators, one of which is not passed on:
//!
//! ```
//! use shabgozim::{Act, Operator, Outcome, Passing, State};
//!
//! let mut head = State::power_on();
//! // WIN X1 is the CCD operator's.
//! let passed = head.pass_on(Operator::Ccd, 0x2864);
//! assert_eq!(passed, Passing::Passed(Outcome::Taken(Act::None)));
//! assert_eq!(head.pass_on(Operator::Infrared, 0x2864), Passing::NotPassed);
//! ```
//!
//! A request of the high-resolution head, to a word and back:
//!
//! ```
//! use shabgozim::{decode_request, encode_request, Meaning, Request};
//!
//! let word = encode_request(Request::HSetDetOn, 1).unwrap();
//! assert_eq!(word, 0x4401);
//! assert_eq!(decode_request(word), Ok((Meaning::One(Request::HSetDetOn), 1)));
//! // Three requests have the same words for a lamp's current.
//! let (meaning, value) = decode_request(0x2405).unwrap();
//! assert_eq!((meaning.requests().len(), value), (3, 5));
//! ```

mod blocks;
mod diagnosis;
mod ffi;
mod list;
mod merge;
mod operators;
mod pixel_map;
mod plan;
pub mod raw;
mod requests;
mod state;
mod text;
mod text_list;
mod words;

pub use blocks::*;
pub use diagnosis::*;
pub use list::*;
pub use merge::*;
pub use operators::*;
pub use pixel_map::*;
pub use plan::*;
pub use requests::*;
pub use state::*;
pub use text::*;
pub use text_list::*;
pub use words::*;

/// The example in the README.
#[cfg(doctest)]
#[doc = include_str!("../../README.md")]
struct Readme;
