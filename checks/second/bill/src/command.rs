//! The words that `gasaccount` is called with.

/// How `gasaccount` is used.
pub const USAGE: &str = "\
usage: gasaccount statement [--lines] MONTH
       gasaccount late NUMBER [NUMBER ..]";

/// What is asked of `gasaccount`.
#[derive(Clone, PartialEq, Eq, Debug)]
pub enum Command {
    Help,
    Statement {
        /// The word that is to be the month.
        month: String,
        /// Whether the month's lines come first.
        lines: bool,
    },
    /// Late charges up to the lines of these numbers.
    Late(Vec<usize>),
}

impl Command {
    /// Reads the words behind the program's name, or says what is wrong with them.
    pub fn read(words: &[String]) -> Result<Self, String> {
        let words: Vec<&str> = words.iter().map(String::as_str).collect();
        match words[..] {
            [] => Err(String::from("a command is missing")),
            ["--help" | "help"] | ["help", "statement" | "late"] => Ok(Command::Help),
            ["statement", ref words @ ..] => statement(words),
            ["late", ref words @ ..] => late(words),
            [option, ..] if is_option(option) => Err(no_option(option)),
            ["help", word, ..] | [word, ..] => Err(format!("there is no command {word}")),
        }
    }
}

/// The words behind `statement`: the option before or behind the month.
fn statement(words: &[&str]) -> Result<Command, String> {
    let (options, months) = parted(words);
    let mut lines = false;
    for option in options {
        match option {
            "--help" => return Ok(Command::Help),
            "--lines" if lines => return Err(String::from("--lines is given twice")),
            "--lines" => lines = true,
            option => return Err(no_option(option)),
        }
    }
    match months[..] {
        [] => Err(String::from("the month is missing")),
        [month] => Ok(Command::Statement {
            month: String::from(month),
            lines,
        }),
        [_, word, ..] => Err(format!("there is a word behind the month: {word}")),
    }
}

/// The words behind `late`: whole numbers, at least one, and no option.
fn late(words: &[&str]) -> Result<Command, String> {
    let (options, numbers) = parted(words);
    match options[..] {
        ["--help", ..] => return Ok(Command::Help),
        [option, ..] => return Err(no_option(option)),
        [] => {}
    }
    if numbers.is_empty() {
        return Err(String::from("the number of a line is missing"));
    }
    let number = |word: &str| {
        word.parse()
            .map_err(|_| format!("this is not the number of a line: {word}"))
    };
    let numbers: Result<_, _> = numbers.into_iter().map(number).collect();
    numbers.map(Command::Late)
}

/// The options among the words, and the other words. Behind `--` there are no options.
fn parted<'a>(words: &[&'a str]) -> (Vec<&'a str>, Vec<&'a str>) {
    let end = words.iter().position(|&word| word == "--");
    let (before, behind) = match end {
        Some(end) => (&words[..end], &words[end + 1..]),
        None => (words, &[][..]),
    };
    let (options, mut others): (Vec<_>, Vec<_>) = before.iter().partition(|word| is_option(word));
    others.extend(behind);
    (options, others)
}

/// Whatever begins as an option is one.
fn is_option(word: &str) -> bool {
    word.len() > 1 && word.starts_with('-')
}

fn no_option(option: &str) -> String {
    format!("there is no option {option}")
}

#[cfg(test)]
mod tests {
    use super::*;

    fn read(words: &[&str]) -> Result<Command, String> {
        let words: Vec<String> = words.iter().map(|&word| String::from(word)).collect();
        Command::read(&words)
    }

    fn statement(month: &str, lines: bool) -> Result<Command, String> {
        let month = String::from(month);
        Ok(Command::Statement { month, lines })
    }

    fn late(numbers: &[usize]) -> Result<Command, String> {
        Ok(Command::Late(numbers.to_vec()))
    }

    #[test]
    fn the_option_stands_before_or_behind_the_month() {
        assert_eq!(read(&["statement", "3"]), statement("3", false));
        assert_eq!(read(&["statement", "--lines", "3"]), statement("3", true));
        assert_eq!(read(&["statement", "3", "--lines"]), statement("3", true));
    }

    #[test]
    fn any_word_may_stand_for_the_month() {
        for word in ["", "x", "13", "statement", "help", "-"] {
            assert_eq!(read(&["statement", word]), statement(word, false));
        }
        for word in ["3", "-1", "--lines", "--"] {
            let words = ["statement", "--lines", "--", word];
            assert_eq!(read(&words), statement(word, true));
        }
    }

    #[test]
    fn lines_are_named_by_whole_numbers() {
        assert_eq!(read(&["late", "4"]), late(&[4]));
        assert_eq!(read(&["late", "4", "5", "4", "0"]), late(&[4, 5, 4, 0]));
        for word in ["7", "+7", "007", "+007", "00000000000000000000000007"] {
            assert_eq!(read(&["late", word]), late(&[7]));
        }
        let most = "18446744073709551615";
        for word in [String::from(most), format!("+{most}"), format!("000{most}")] {
            assert_eq!(read(&["late", &word]), late(&[usize::MAX]));
        }
    }

    #[test]
    fn numbers_stand_behind_two_dashes_too() {
        assert_eq!(read(&["late", "--", "4", "5"]), late(&[4, 5]));
        assert_eq!(read(&["late", "4", "--", "+5"]), late(&[4, 5]));
        assert_eq!(read(&["late", "4", "5", "--"]), late(&[4, 5]));
    }

    #[test]
    fn what_is_no_number_of_a_line() {
        for word in [
            "",
            "x",
            "4x",
            "1.5",
            "1e3",
            "0x4",
            " 4",
            "4 ",
            "4,5",
            "1_000",
            "+",
            "++4",
            "+-4",
            "-",
            "-1",
            "-0",
            "--4",
            "18446744073709551616",
            "99999999999999999999",
            "٤",
            "statement",
        ] {
            for words in [
                &["late", word][..],
                &["late", "4", word],
                &["late", word, "4"],
                &["late", "--", word],
            ] {
                assert!(read(words).is_err(), "{words:?}");
            }
        }
    }

    #[test]
    fn help_is_asked_for_in_some_ways() {
        for words in [
            &["--help"][..],
            &["statement", "--help"],
            &["help", "statement"],
            &["late", "--help"],
            &["late", "4", "--help"],
            &["help", "late"],
        ] {
            assert_eq!(read(words), Ok(Command::Help));
        }
    }

    #[test]
    fn other_words_are_no_command() {
        for words in [
            &[][..],
            &["lines"],
            &["--lines", "0"],
            &["help", "lines"],
            &["statement"],
            &["statement", "--lines"],
            &["statement", "--line", "0"],
            &["statement", "0", "1"],
            &["statement", "--lines", "--lines", "0"],
            &["statement", "--"],
            &["late"],
            &["late", "--"],
            &["late", "--lines", "4"],
            &["late", "4", "--", "--help"],
            &["--late", "4"],
        ] {
            assert!(read(words).is_err(), "{words:?}");
        }
    }
}
