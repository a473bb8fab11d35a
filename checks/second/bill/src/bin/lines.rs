//! Reads a journal from standard input, and prints what it comes to.

use std::io::{self, Write};

use bill::{input, report};

fn main() -> io::Result<()> {
    let journal = input::standard()?;
    io::stdout().write_all(report::lines(&journal).as_bytes())
}
