//! Prints what the fixed set of months costs.

use std::io::{self, Write};

use bill::report;

fn main() -> io::Result<()> {
    io::stdout().write_all(report::prices().as_bytes())
}
