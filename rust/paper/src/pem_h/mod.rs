//! The high-resolution head, PEM-H: its requests, its pixel map, and the map
//! as a picture. From section 4.2 of document 000 and document 02's request P5;
//! the picture, the lines of refusals, and the readings that docs/DECISIONS.md
//! has of that request, from a description.
//!
//! | module | idea |
//! |---|---|
//! | `table` | the requests' words, as document 000 draws them |
//! | `requests` | requests to words and back |
//! | `pixel_map` | lighted pixels and the time of their readout |
//! | `picture` | a pixel map as a portable bitmap |
//! | `refusal` | what is refused, by number and in words |

mod picture;
mod pixel_map;
mod refusal;
mod requests;
mod table;

pub use pixel_map::{PixelMap, COLUMNS, MAP_LENGTH, PIXELS, ROWS};
pub use refusal::Refusal;
pub use requests::{decode, encode, Meaning, Read};
pub use table::{name, REQUEST_COUNT};
