//! Where a plan, a list or a map comes from, and its bytes.

use crate::descriptors::Descriptors;
use crate::failure::Failure;
use std::ffi::{OsStr, OsString};
use std::fs::File;
use std::io::{self, Read};

pub enum Source {
    StandardInput,
    Named(OsString),
}

impl Source {
    /// The source that an argument names.
    pub fn of(argument: OsString) -> Source {
        if argument == "-" {
            Source::StandardInput
        } else {
            Source::Named(argument)
        }
    }

    /// What messages call it.
    pub fn name(&self) -> &OsStr {
        match self {
            Source::StandardInput => OsStr::new("standard input"),
            Source::Named(name) => name,
        }
    }

    /// All its bytes. One more than it may have tells a longer input; an
    /// endless one is read no further.
    pub fn bytes(&self, most: usize, descriptors: &Descriptors) -> Result<Vec<u8>, Failure> {
        let bytes = self.beginning(most as u64 + 1, descriptors);
        bytes.map_err(|error| Failure::system(self.name(), &error))
    }

    fn beginning(&self, length: u64, descriptors: &Descriptors) -> io::Result<Vec<u8>> {
        match self {
            Source::StandardInput => {
                let input = descriptors.input()?;
                beginning(&input, length)
            }
            Source::Named(name) => beginning(&File::open(name)?, length),
        }
    }
}

fn beginning(file: &File, length: u64) -> io::Result<Vec<u8>> {
    let mut bytes = Vec::new();
    file.take(length).read_to_end(&mut bytes)?;
    Ok(bytes)
}
