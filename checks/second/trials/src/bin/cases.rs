//! Chooses small journals that show much, writes them as files, and prints
//! what a program prints of each: `cases SECOND FOLDER` with options.

use std::env;
use std::fs;
use std::io::{self, Write};
use std::path::Path;
use std::process::ExitCode;
use trials::arguments::{ended, Arguments};
use trials::choose::choose;
use trials::crew::usual_jobs;

fn main() -> ExitCode {
    ended("cases", "SECOND FOLDER [--seed S] [--jobs J]", run())
}

fn run() -> Result<(), String> {
    let arguments = Arguments::read(env::args().skip(1), 2, &["seed", "jobs"])?;
    let program = Path::new(&arguments.plain[0]);
    let folder = Path::new(&arguments.plain[1]);
    let seed = arguments.number("seed", 1)?;
    let jobs = arguments.number("jobs", usual_jobs())?;
    let chosen = choose(program, seed, jobs)?;
    fs::create_dir_all(folder).map_err(|error| format!("{}: {error}", folder.display()))?;
    let mut printed = io::stdout().lock();
    for (number, chosen) in (1..).zip(&chosen) {
        let name = format!("{number:03}.journal");
        fs::write(folder.join(&name), &chosen.journal)
            .map_err(|error| format!("{name}: {error}"))?;
        writeln!(printed, "journal {name}")
            .and_then(|()| printed.write_all(&chosen.output))
            .map_err(|error| error.to_string())?;
    }
    printed.flush().map_err(|error| error.to_string())
}
