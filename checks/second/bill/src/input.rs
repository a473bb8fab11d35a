//! Where journals come from. Of one that is too long only so much is answered as shows it.

use std::ffi::OsStr;
use std::fs::File;
use std::io::{self, Read};

use crate::report::MOST_BYTES;

/// The journal that stands on standard input.
pub fn standard() -> io::Result<Vec<u8>> {
    let mut input = io::stdin().lock();
    let journal = journal(&mut input)?;
    // What is left of a journal that is too long is read and dropped.
    io::copy(&mut input, &mut io::sink())?;
    Ok(journal)
}

/// The journal in the file of this name.
pub fn file(name: &OsStr) -> io::Result<Vec<u8>> {
    journal(&mut File::open(name)?)
}

/// One byte past the bound tells that a journal is too long.
fn journal(input: &mut impl Read) -> io::Result<Vec<u8>> {
    let mut journal = Vec::new();
    let bound = MOST_BYTES as u64 + 1;
    input.take(bound).read_to_end(&mut journal)?;
    Ok(journal)
}
