//! Standard input, output and error, as the caller gave them.
//!
//! Before Rust's `main` its runtime opens /dev/null in the place of each of the
//! three that is closed, and std's `Stdin` and `Stdout` take a bad descriptor
//! for an empty input or for printed output. A listing that nobody gets would
//! then end with status 0. So the program begins at C's `main`, where that
//! runtime has not run, and takes the descriptors as plain files, whose errors
//! are all told.
//!
//! Without the runtime a plan that is opened could get the number of a closed
//! descriptor, and the output or a message would be written into it. So
//! nothing is opened when the output is closed, and otherwise a closed input or
//! error has its place filled first.

use crate::failure::Failure;
use std::ffi::{c_int, OsStr};
use std::fs::File;
use std::io::{self, Write};
use std::mem::ManuallyDrop;
use std::os::fd::{FromRawFd, IntoRawFd};

const INPUT: c_int = 0;
const OUTPUT: c_int = 1;
const ERROR: c_int = 2;

const OUTPUT_NAME: &str = "standard output";
const FILLER: &str = "/dev/null";

// Linux's numbers.
const F_GETFD: c_int = 1;
const EBADF: i32 = 9;
const SIGPIPE: c_int = 13;
const SIGXFSZ: c_int = 25;
const SIG_IGN: usize = 1;

extern "C" {
    fn fcntl(descriptor: c_int, command: c_int, ...) -> c_int;
    fn close(descriptor: c_int) -> c_int;
    fn signal(number: c_int, handler: usize) -> usize;
}

/// The three descriptors, none of whose numbers another file can get.
pub struct Descriptors {
    input_was_open: bool,
}

impl Descriptors {
    /// To be called once, before anything is opened. Fails where the output is
    /// closed.
    pub fn take() -> Result<Descriptors, Failure> {
        make_signals_errors();
        if !is_open(OUTPUT) {
            return Err(output_failure(bad_descriptor()));
        }
        let input_was_open = is_open(INPUT);
        fill(INPUT)?;
        fill(ERROR)?;
        Ok(Descriptors { input_was_open })
    }

    /// The standard input; an error where it was closed.
    pub fn input(&self) -> io::Result<ManuallyDrop<File>> {
        if self.input_was_open {
            Ok(borrowed(INPUT))
        } else {
            Err(bad_descriptor())
        }
    }

    /// Writes all bytes to the standard output.
    pub fn print(&self, bytes: &[u8]) -> Result<(), Failure> {
        let written = borrowed(OUTPUT).write_all(bytes);
        written.map_err(output_failure)
    }

    /// Closes the standard output, since some file systems tell only then that
    /// there was no room.
    pub fn close(self) -> Result<(), Failure> {
        // SAFETY: nothing else owns it, and nothing is written to it or opened
        // after this.
        match unsafe { close(OUTPUT) } {
            0 => Ok(()),
            _ => Err(output_failure(io::Error::last_os_error())),
        }
    }
}

/// The standard error.
pub fn error() -> ManuallyDrop<File> {
    borrowed(ERROR)
}

/// A pipe without a reader and a file at its greatest length end a program by a
/// signal; when the signal is ignored, the write gives an error instead.
fn make_signals_errors() {
    // SAFETY: no handler is set.
    unsafe {
        signal(SIGPIPE, SIG_IGN);
        signal(SIGXFSZ, SIG_IGN);
    }
}

fn is_open(descriptor: c_int) -> bool {
    // SAFETY: this asks for flags and changes nothing.
    unsafe { fcntl(descriptor, F_GETFD) != -1 }
}

/// Fills a closed descriptor's place for the program's whole run. A file gets
/// the lowest free number, so the lower ones must be open.
fn fill(descriptor: c_int) -> Result<(), Failure> {
    if !is_open(descriptor) {
        let filler = File::open(FILLER);
        let filler = filler.map_err(|error| Failure::system(OsStr::new(FILLER), &error))?;
        let _ = filler.into_raw_fd();
    }
    Ok(())
}

/// A descriptor as a file that stays open when it is dropped.
fn borrowed(descriptor: c_int) -> ManuallyDrop<File> {
    // SAFETY: nothing else in the program owns this descriptor, and a closed one
    // only gives errors.
    ManuallyDrop::new(unsafe { File::from_raw_fd(descriptor) })
}

fn output_failure(error: io::Error) -> Failure {
    Failure::system(OsStr::new(OUTPUT_NAME), &error)
}

fn bad_descriptor() -> io::Error {
    io::Error::from_raw_os_error(EBADF)
}
