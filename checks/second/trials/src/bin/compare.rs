//! Compares the programs of two makers on many journals: `compare` with the
//! three programs of the one, the same three of the other, and options.

use std::env;
use std::process::ExitCode;
use trials::arguments::Arguments;
use trials::compare::{Comparison, Outcome, Programs};
use trials::crew::usual_jobs;

fn main() -> ExitCode {
    let comparison = match read() {
        Ok(comparison) => comparison,
        Err(reason) => {
            eprintln!("compare: {reason}");
            eprintln!(
                "usage: compare LINES STATEMENTS GASACCOUNT LINES STATEMENTS GASACCOUNT \
                 [--count N] [--seed S] [--from K] [--jobs J] [--save FOLDER]"
            );
            return ExitCode::from(2);
        }
    };
    match comparison.run() {
        Ok((outcome, text)) => {
            print!("{text}");
            match outcome {
                Outcome::Agreed => ExitCode::SUCCESS,
                Outcome::Differed => ExitCode::from(1),
                Outcome::Trouble => ExitCode::from(2),
            }
        }
        Err(reason) => {
            eprintln!("compare: {reason}");
            ExitCode::from(2)
        }
    }
}

fn read() -> Result<Comparison, String> {
    let names = ["count", "seed", "from", "jobs", "save"];
    let arguments = Arguments::read(env::args().skip(1), 6, &names)?;
    let programs = |first: usize| Programs {
        lines: arguments.plain[first].clone().into(),
        statements: arguments.plain[first + 1].clone().into(),
        gasaccount: arguments.plain[first + 2].clone().into(),
    };
    Ok(Comparison {
        one: programs(0),
        two: programs(3),
        seed: arguments.number("seed", 1)?,
        from: arguments.number("from", 0)?,
        count: arguments.number("count", 10_000)?,
        jobs: arguments.number("jobs", usual_jobs())?,
        save: arguments.text("save", "./difference").into(),
    })
}
