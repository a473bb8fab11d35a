//! The arguments of the programs: plain ones, and options with a value each.

use std::collections::BTreeMap;
use std::process::ExitCode;
use std::str::FromStr;

pub struct Arguments {
    pub plain: Vec<String>,
    options: BTreeMap<String, String>,
}

impl Arguments {
    /// Takes just so many plain arguments, and of options only those named.
    pub fn read(
        given: impl Iterator<Item = String>,
        plain: usize,
        names: &[&str],
    ) -> Result<Arguments, String> {
        let mut arguments = Arguments {
            plain: Vec::new(),
            options: BTreeMap::new(),
        };
        let mut given = given;
        while let Some(argument) = given.next() {
            let Some(name) = argument.strip_prefix("--") else {
                arguments.plain.push(argument);
                continue;
            };
            if !names.contains(&name) {
                return Err(format!("there is no option --{name}"));
            }
            let value = given
                .next()
                .ok_or_else(|| format!("--{name} wants a value"))?;
            arguments.options.insert(name.to_string(), value);
        }
        if arguments.plain.len() != plain {
            return Err(format!(
                "{plain} arguments are wanted, {} are given",
                arguments.plain.len()
            ));
        }
        Ok(arguments)
    }

    pub fn number<T: FromStr>(&self, name: &str, usual: T) -> Result<T, String> {
        match self.options.get(name) {
            None => Ok(usual),
            Some(value) => parse(value),
        }
    }

    pub fn text(&self, name: &str, usual: &str) -> String {
        self.options
            .get(name)
            .cloned()
            .unwrap_or_else(|| usual.to_string())
    }
}

/// How a program of this name ends: well, or with the reason and its usage on
/// standard error and status 2.
pub fn ended(name: &str, usage: &str, run: Result<(), String>) -> ExitCode {
    let Err(reason) = run else {
        return ExitCode::SUCCESS;
    };
    eprintln!("{name}: {reason}");
    eprintln!("usage: {name} {usage}");
    ExitCode::from(2)
}

pub fn parse<T: FromStr>(value: &str) -> Result<T, String> {
    value.parse().map_err(|_| format!("{value} is no number"))
}
