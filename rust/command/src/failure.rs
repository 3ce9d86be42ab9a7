//! Why something was not done: one message on standard error, and the exit
//! status.

use crate::description::NAME;
use crate::{descriptors, help};
use std::ffi::{c_int, OsStr, OsString};
use std::io::{self, Write};
use std::os::unix::ffi::OsStrExt;

/// Exit statuses.
pub const DONE: c_int = 0;
pub const REFUSED: c_int = 1;
pub const FAILED: c_int = 2;

/// What failed, and why.
pub struct Failure {
    about: OsString,
    words: String,
    status: c_int,
}

impl Failure {
    /// A plan, a list, two lists or a map that is refused with these words.
    pub fn refused(about: &OsStr, words: &str) -> Failure {
        Failure {
            about: about.into(),
            words: words.into(),
            status: REFUSED,
        }
    }

    /// Something that could not be read or written.
    pub fn system(about: &OsStr, error: &io::Error) -> Failure {
        Failure {
            about: about.into(),
            words: reason(error),
            status: FAILED,
        }
    }

    /// An argument that is wrong; the usage follows.
    pub fn usage(about: &OsStr, words: &str) -> Failure {
        Failure {
            about: about.into(),
            words: format!("{words}\n{}", help::usage()),
            status: FAILED,
        }
    }

    /// Tells it on standard error; gives the exit status. Where that cannot be
    /// written the status alone tells it.
    pub fn tell(self) -> c_int {
        let message = [
            NAME.as_bytes(),
            b": ",
            self.about.as_bytes(),
            b": ",
            self.words.as_bytes(),
            b"\n",
        ];
        let _ = descriptors::error().write_all(&message.concat());
        self.status
    }
}

/// The system's words, without the number that `io::Error` puts behind them.
fn reason(error: &io::Error) -> String {
    let words = error.to_string();
    let number = error.raw_os_error().unwrap_or(0);
    match words.strip_suffix(&format!(" (os error {number})")) {
        Some(words) => words.into(),
        None => words,
    }
}
