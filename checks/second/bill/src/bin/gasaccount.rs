//! Reads a journal from standard input, and prints the statement of a month, or the lines with late
//! charges behind them.

use std::env;
use std::io::{self, Write};
use std::process::ExitCode;

use bill::command::{Command, USAGE};
use bill::report::{self, Printed};
use bill::{input, statement};

const HELP: &str = "\
gasaccount statement reads a journal from standard input and prints the statement of a month: the
sum of each item in cents, and the sum of all lines in millicents. What is refused of the journal is
told on standard error.

  --lines  print the lines of the month first
  MONTH    0, November, to 11, October, or 12, the year as a whole

gasaccount late reads a journal from standard input, charges for lines that were due and are paid
late, and prints what is refused of the journal and of the late charges, all lines and their sum.

  NUMBER   the number of the last line that was due; a late charge is made up to each in turn
";

fn main() -> ExitCode {
    // A word that is no text is no month either, and is told as well as it can be.
    let words: Vec<String> = env::args_os()
        .skip(1)
        .map(|word| word.to_string_lossy().into_owned())
        .collect();
    match answer(&words).and_then(|printed| print(&printed)) {
        Ok(status) => ExitCode::from(status),
        Err(error) => {
            eprintln!("gasaccount: {error}");
            ExitCode::FAILURE
        }
    }
}

fn answer(words: &[String]) -> io::Result<Printed> {
    match Command::read(words) {
        Ok(Command::Statement { month, lines }) => of_month(&month, lines),
        Ok(Command::Late(numbers)) => Ok(report::late(&input::standard()?, &numbers)),
        Ok(Command::Help) => Ok(Printed {
            output: format!("{USAGE}\n\n{HELP}"),
            ..Printed::default()
        }),
        Err(reason) => Ok(Printed {
            errors: format!("gasaccount: {reason}\n{USAGE}\n"),
            status: 2,
            ..Printed::default()
        }),
    }
}

/// A month that is refused is refused before the journal is read.
fn of_month(word: &str, with_lines: bool) -> io::Result<Printed> {
    match statement::month(word) {
        Ok(month) => Ok(report::statement(&input::standard()?, month, with_lines)),
        Err(refusal) => Ok(report::no_statement(refusal, word)),
    }
}

/// Prints on both streams, and answers the status.
fn print(printed: &Printed) -> io::Result<u8> {
    io::stderr().write_all(printed.errors.as_bytes())?;
    io::stdout().write_all(printed.output.as_bytes())?;
    Ok(printed.status)
}
