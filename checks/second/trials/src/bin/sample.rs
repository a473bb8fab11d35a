//! Chooses, of the journals that are stored in a folder, few whose statements
//! show much, and prints their names: `sample LINES FOLDER` with options.

use std::env;
use std::path::Path;
use std::process::ExitCode;
use trials::arguments::{ended, Arguments};
use trials::crew::usual_jobs;
use trials::sample::sample;

fn main() -> ExitCode {
    ended("sample", "LINES FOLDER [--jobs J]", run())
}

fn run() -> Result<(), String> {
    let arguments = Arguments::read(env::args().skip(1), 2, &["jobs"])?;
    let lines = Path::new(&arguments.plain[0]);
    let folder = Path::new(&arguments.plain[1]);
    let jobs = arguments.number("jobs", usual_jobs())?;
    for name in sample(lines, folder, jobs)? {
        println!("{name}");
    }
    Ok(())
}
