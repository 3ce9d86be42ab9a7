//! An unpacked answer of the wrapper compared with the paper's.

use crate::reduce::{Counted, Failure};
use std::fmt::{Debug, Display};

pub fn same<T: PartialEq + Debug>(what: impl Display, found: T, expected: T) -> Counted {
    if found == expected {
        return Ok(1);
    }
    let text = format!("unpacked, {what}\nlibrary {found:?}\npaper {expected:?}");
    Err(Failure(text))
}
