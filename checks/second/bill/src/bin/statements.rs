//! Prints the statements of all months of each journal whose file is named.

use std::env;
use std::ffi::OsStr;
use std::io::{self, Write};
use std::process::ExitCode;

use bill::{input, report};

fn main() -> ExitCode {
    for name in env::args_os().skip(1) {
        if let Err(error) = print(&name) {
            eprintln!("statements: {}: {error}", name.to_string_lossy());
            return ExitCode::FAILURE;
        }
    }
    ExitCode::SUCCESS
}

/// Nothing is printed of a file that cannot be read.
fn print(name: &OsStr) -> io::Result<()> {
    let journal = input::file(name)?;
    let rows = report::statements(&journal);
    let name = name.as_encoded_bytes();
    io::stdout().write_all(&[b"journal ", name, b"\n", rows.as_bytes()].concat())
}
