//! The high-resolution head: its requests, its pixel map and the picture.
//!
//! | module | idea |
//! |---|---|
//! | [`codec`] | requests to words and back |
//! | `maps`, `shorter_maps` | pixel maps to ask about, and how they are made darker |
//! | [`counts`] | lighted pixels and the time of their readout |
//! | [`pictures`] | pixel maps as pictures |
//! | [`refusals`] | refusals in words |
//! | [`unpacked`] | what the wrapper makes of all this |

pub mod codec;
pub mod counts;
mod map_case;
mod maps;
mod picture_case;
pub mod pictures;
pub mod refusals;
mod shorter_maps;
pub mod unpacked;
