//! What `gasaccount` is asked of a journal, and what it has to answer.

use crate::answer::Answer;
use crate::random::Random;
use crate::run::{End, Run};
use crate::sheet::{Form, Sheet};

/// The draws of the questions are others than those of the journals.
const APART: u64 = 0x7374_6174_656d_656e;

/// The months that most journals have lines in.
const USUAL: [u8; 4] = [0, 1, 2, 12];

/// Words for the month that are not written as a month is, most of which are
/// none.
const STRANGE: [&str; 16] = [
    "13",
    "14",
    "99",
    "128",
    "255",
    "256",
    "999",
    "4294967296",
    "x",
    "1.5",
    "",
    "007",
    "012",
    "013",
    " 3",
    "3 ",
];

#[derive(Clone, Copy, Debug, PartialEq, Eq)]
enum Lines {
    Without,
    BeforeTheMonth,
    BehindTheMonth,
}

/// A question: a word for the month, and whether its lines are asked for.
#[derive(Clone, Debug, PartialEq, Eq)]
pub struct Asked {
    word: String,
    lines: Lines,
}

impl Asked {
    /// The question of the journal with this seed and number.
    pub fn of(seed: u64, number: u64) -> Asked {
        let mut random = Random::new(seed ^ APART, number);
        let word = match random.below(100) {
            0..=39 => random.pick(&USUAL).to_string(),
            40..=87 => random.byte_between(0, 12).to_string(),
            _ => random.pick(&STRANGE).to_string(),
        };
        let lines = random.pick(&[Lines::Without, Lines::BeforeTheMonth, Lines::BehindTheMonth]);
        Asked { word, lines }
    }

    /// The words behind the program's name.
    pub fn arguments(&self) -> Vec<String> {
        let (word, option) = (self.word.as_str(), "--lines");
        let words: &[&str] = match self.lines {
            Lines::Without => &["statement", word],
            Lines::BeforeTheMonth => &["statement", option, word],
            Lines::BehindTheMonth => &["statement", word, option],
        };
        words.iter().map(|word| word.to_string()).collect()
    }

    /// The month, of a word that is one.
    pub fn month(&self) -> Option<u8> {
        self.word.parse().ok().filter(|&month| month <= 12)
    }

    pub fn has_lines(&self) -> bool {
        self.lines != Lines::Without
    }

    /// Says why the run does not answer the question, by what `lines` and
    /// `statements` printed of the journal.
    pub fn check(&self, run: &Run, answer: &Answer, sheet: &Sheet) -> Result<(), String> {
        let (status, output, errors) = match (self.month(), answer) {
            (None, _) => {
                let word = &self.word;
                let row = "refused 3: a statement is of a month from 0 to 12, not of";
                (1, String::new(), format!("{row} {word}\n"))
            }
            (_, Answer::TooLong) => (1, String::new(), "too long\n".to_string()),
            (Some(month), Answer::Played { refusals, .. }) => {
                let lines = if self.has_lines() {
                    rows_of(answer, month)
                } else {
                    String::new()
                };
                let form = sheet.form(month).map_or(String::new(), Form::text);
                let refused = refusals
                    .iter()
                    .map(|refusal| format!("refused {} {}\n", refusal.record, refusal.number));
                (0, format!("{lines}{form}"), refused.collect())
            }
        };
        if run.end != End::Status(status) {
            Err(format!("comes with {}, and not {status}", run.end))
        } else if run.output != output.as_bytes() {
            Err("is not that of lines and statements".to_string())
        } else if run.errors != errors.as_bytes() {
            Err("comes with something else on standard error".to_string())
        } else {
            Ok(())
        }
    }
}

/// The rows that `lines` has of a month's lines.
fn rows_of(answer: &Answer, month: u8) -> String {
    (1..)
        .zip(answer.lines())
        .filter(|(_, line)| line.month == month)
        .map(|(number, line)| {
            format!(
                "{number} {month} {} {} {}\n",
                line.item, line.therms, line.millicents
            )
        })
        .collect::<String>()
}

#[cfg(test)]
mod tests {
    use super::*;
    use std::collections::BTreeSet;

    #[test]
    fn a_question_is_a_function_of_the_seed_and_the_number() {
        for number in 0..200 {
            assert_eq!(Asked::of(7, number), Asked::of(7, number));
        }
        let seeds: BTreeSet<Vec<String>> = (0..100)
            .map(|seed| Asked::of(seed, 3).arguments())
            .collect();
        assert!(seeds.len() > 20);
    }

    #[test]
    fn each_month_is_asked_for_and_strange_words_are_few() {
        let asked: Vec<Asked> = (0..10_000).map(|number| Asked::of(1, number)).collect();
        let months: BTreeSet<u8> = asked.iter().filter_map(Asked::month).collect();
        assert_eq!(months, (0..=12).collect());
        let words: BTreeSet<&str> = asked.iter().map(|asked| asked.word.as_str()).collect();
        assert!(STRANGE.iter().all(|word| words.contains(word)));
        let none = asked.iter().filter(|asked| asked.month().is_none());
        assert!((800..1_200).contains(&none.count()));
        let forms: BTreeSet<usize> = asked.iter().map(|asked| asked.arguments().len()).collect();
        assert_eq!(forms, [2, 3].into());
    }

    fn asked(word: &str, lines: Lines) -> Asked {
        let word = word.to_string();
        Asked { word, lines }
    }

    fn run(status: i32, output: &str, errors: &str) -> Run {
        Run {
            end: End::Status(status),
            output: output.as_bytes().to_vec(),
            errors: errors.as_bytes().to_vec(),
        }
    }

    #[test]
    fn an_answer_is_held_against_lines_and_forms() {
        let output = b"refused 1 20\nno month item therms millicents\n1 12 13 0 -700\nsum -700\n";
        let answer = Answer::read(output).unwrap();
        let empty: String = (0..12)
            .map(|month| format!("month {month}\ntotal 0\n"))
            .collect();
        let printed = format!("journal a\nrefused 1 20\n{empty}month 12\n13 -1\ntotal -700\n");
        let sheets = Sheet::read_all(printed.as_bytes(), &["a".to_string()]).unwrap();
        let check = |asked: Asked, run: Run| asked.check(&run, &answer, &sheets[0]);
        let refused = "refused 1 20\n";
        let form = "13 -1\ntotal -700\n";
        let lines = format!("1 12 13 0 -700\n{form}");
        let whole = |lines| asked("12", lines);
        assert_eq!(check(whole(Lines::Without), run(0, form, refused)), Ok(()));
        assert!(check(whole(Lines::Without), run(0, &lines, refused)).is_err());
        for place in [Lines::BeforeTheMonth, Lines::BehindTheMonth] {
            assert_eq!(check(whole(place), run(0, &lines, refused)), Ok(()));
            assert!(check(whole(place), run(0, form, refused)).is_err());
        }
        let first = || asked("0", Lines::BehindTheMonth);
        assert_eq!(check(first(), run(0, "total 0\n", refused)), Ok(()));
        assert!(check(first(), run(0, "total 0\n", "")).is_err());
        assert!(check(first(), run(1, "total 0\n", refused)).is_err());
        let row = "refused 3: a statement is of a month from 0 to 12, not of 1.5\n";
        let strange = || asked("1.5", Lines::Without);
        assert_eq!(check(strange(), run(1, "", row)), Ok(()));
        assert!(check(strange(), run(0, form, refused)).is_err());
    }
}
