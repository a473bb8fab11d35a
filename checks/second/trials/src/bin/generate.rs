//! Writes a journal to standard output: `generate SEED NUMBER`.

use std::env;
use std::io::{self, Write};
use std::process::ExitCode;
use trials::arguments::{ended, parse, Arguments};

fn main() -> ExitCode {
    ended("generate", "SEED NUMBER", run())
}

fn run() -> Result<(), String> {
    let arguments = Arguments::read(env::args().skip(1), 2, &[])?;
    let seed = parse(&arguments.plain[0])?;
    let number = parse(&arguments.plain[1])?;
    io::stdout()
        .write_all(&trials::journal(seed, number))
        .map_err(|error| error.to_string())
}
