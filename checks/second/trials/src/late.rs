//! Which late charges `gasaccount` is asked for behind a journal, and what it
//! has to answer.

use crate::answer::{Answer, LateRefusal, Line};
use crate::book::PAYMENT;
use crate::random::Random;
use crate::records::Record;
use crate::run::{End, Run};
use std::collections::BTreeMap;

/// The draws of the payments are others than those of the journals and of the
/// statements, and those of the numbers are others again.
const PAYMENTS_APART: u64 = 0x7061_6964_206c_6174;
const NUMBERS_APART: u64 = 0x6c61_7465_2063_6861;

/// No late charge is less, in millicents.
const LEAST: i128 = 100_000;
/// None is more.
const MOST: i128 = 9_000_000_000_000;

/// Whatever a late charge may be refused for.
const REFUSALS: [u8; 5] = [20, 29, 30, 31, 32];

/// Sums owed about which it changes whether there is a charge, or whether it
/// is the least one.
const BOUNDS: [i128; 6] = [0, 1_000_000, 1_000_000, 6_633_333, 6_666_666, 6_700_000];

/// Numbers that no line has.
const FAR: [u64; 8] = [
    1_023,
    1_024,
    1_025,
    u32::MAX as u64,
    u32::MAX as u64 + 1,
    i64::MAX as u64,
    u64::MAX - 1,
    u64::MAX,
];

/// Payments behind a journal, by which a sum that is aimed at is owed up to one
/// of its lines.
#[derive(Clone, Debug, PartialEq, Eq)]
pub struct Payments {
    line: u64,
    amounts: Vec<u64>,
}

impl Payments {
    /// Those behind the journal with this seed and number, of which `lines`
    /// printed the answer. Most journals have none.
    pub fn of(seed: u64, number: u64, answer: &Answer) -> Option<Payments> {
        let lines = answer.lines();
        let mut random = Random::new(seed ^ PAYMENTS_APART, number);
        if lines.is_empty() || !random.chance(60) {
            return None;
        }
        let line = match random.below(2) {
            0 => lines.len(),
            _ => 1 + random.place(lines.len()),
        };
        let over = owed(lines, line) - aim(&mut random);
        let over = u64::try_from(over).ok().filter(|&over| over > 0)?;
        Some(Payments {
            line: line as u64,
            amounts: parts(&mut random, over),
        })
    }

    /// The journal with the payments behind it.
    pub fn behind(&self, journal: &[u8]) -> Vec<u8> {
        let mut paid = journal.to_vec();
        for &amount in &self.amounts {
            Record::Pay(amount).write(&mut paid);
        }
        paid
    }
}

/// What is owed up to a line, to aim at a sum.
fn owed(lines: &[Line], line: usize) -> i128 {
    let (due, behind) = lines.split_at(line);
    let payments = behind.iter().filter(|line| line.item == 13);
    due.iter().chain(payments).map(|line| line.millicents).sum()
}

/// A sum at one of the bounds, with half a cent in its charge, or below zero,
/// or one that is just beside such a sum.
fn aim(random: &mut Random) -> i128 {
    let sum = match random.below(10) {
        0..=5 => random.pick(&BOUNDS),
        6..=8 => 6_700_000 + 200_000 * i128::from(random.below(10_000)),
        _ => -i128::from(random.below(100_000_000)),
    };
    sum + random.pick(&[-1, 0, 0, 1])
}

/// Payments that add up to a sum.
fn parts(random: &mut Random, mut sum: u64) -> Vec<u64> {
    let mut parts = Vec::new();
    while sum > 0 {
        let part = match random.below(3) {
            0 => between(random, 1, sum),
            _ => sum,
        };
        parts.push(part.min(PAYMENT));
        sum -= part.min(PAYMENT);
    }
    parts
}

/// A number from `low` to `high`, both included; `low` where it is the greater.
fn between(random: &mut Random, low: u64, high: u64) -> u64 {
    low + random.draw() % high.saturating_sub(low).saturating_add(1)
}

/// A question: the numbers of the late charges, and the words for them.
#[derive(Clone, Debug, PartialEq, Eq)]
pub struct Late {
    numbers: Vec<u64>,
    words: Vec<String>,
}

impl Late {
    /// The question of the journal with this seed and number, of which, with
    /// the payments behind it, `lines` printed the answer.
    pub fn of(seed: u64, number: u64, answer: &Answer, payments: Option<&Payments>) -> Late {
        let mut random = Random::new(seed ^ NUMBERS_APART, number);
        let lines = answer.lines().len() as u64;
        let mut numbers = Vec::new();
        if let Some(Payments { line, .. }) = payments {
            numbers.push(*line);
        }
        // Charges on charges go past what is charged for, or fill the account.
        let long = match answer.sum() {
            1_000_000_000_001.. => 15,
            1_000_001.. => 4,
            _ => 0,
        };
        if random.chance(long) {
            let count = random.pick(&[60, 300, 1_000]);
            numbers.extend(lines.max(2) - 1..lines + count);
        }
        for _ in 0..random.between(1, 8) {
            let number = draw(&mut random, lines, &numbers);
            numbers.push(number);
        }
        let words = numbers.iter().map(|&number| word(&mut random, number));
        let mut words: Vec<String> = words.collect();
        if random.chance(5) {
            let place = random.place(words.len() + 1);
            words.insert(place, "--".to_string());
        }
        Late { numbers, words }
    }

    /// The words behind the program's name.
    pub fn arguments(&self) -> Vec<String> {
        let words = self.words.iter().cloned();
        ["late".to_string()].into_iter().chain(words).collect()
    }

    /// Says why the run does not answer the question, by what `lines` printed
    /// of the same journal. What is charged is left to the programs.
    pub fn check(&self, run: &Run, answer: &Answer) -> Result<Charges, String> {
        let (charged, late) = Answer::read_with_late(&run.output)?;
        let too_long = *answer == Answer::TooLong;
        if run.end != End::Status(i32::from(too_long)) {
            return Err(format!("comes with {}", run.end));
        }
        if !run.errors.is_empty() {
            return Err("comes with something on standard error".to_string());
        }
        if charged.refusals() != answer.refusals() || too_long != (charged == Answer::TooLong) {
            return Err("is not of the journal that lines has played".to_string());
        }
        let Some(charges) = charged.lines().strip_prefix(answer.lines()) else {
            return Err("has other lines of the journal than lines".to_string());
        };
        if !charges.iter().all(is_charge) {
            return Err("has a line that is no late charge behind the journal's".to_string());
        }
        if !too_long && charges.len() + late.len() != self.numbers.len() {
            return Err("has more or fewer late charges than are asked for".to_string());
        }
        let mut asked = self.numbers.iter();
        let is_asked = |refusal: &LateRefusal| asked.any(|&number| number == refusal.line);
        if !late.iter().all(is_asked) {
            return Err("refuses late charges that are not asked for, or out of order".to_string());
        }
        let mut refused = BTreeMap::new();
        for LateRefusal { number, .. } in late {
            if !REFUSALS.contains(&number) {
                return Err(format!("refuses a late charge with {number}"));
            }
            *refused.entry(number).or_insert(0) += 1;
        }
        let least = charges.iter().filter(|line| line.millicents == LEAST);
        Ok(Charges {
            accepted: charges.len() as u64,
            least: least.count() as u64,
            refused,
        })
    }
}

/// What was answered, in numbers.
#[derive(Clone, Debug, Default, PartialEq, Eq)]
pub struct Charges {
    pub accepted: u64,
    /// Those that are the least charge.
    pub least: u64,
    pub refused: BTreeMap<u8, u64>,
}

fn is_charge(line: &Line) -> bool {
    (line.month, line.item, line.therms) == (12, 14, 0)
        && line.millicents % 1_000 == 0
        && (LEAST..=MOST).contains(&line.millicents)
}

/// A number for a journal with so many lines, behind others: mostly one that
/// may be accepted, or that is not beyond the last of them that may be.
fn draw(random: &mut Random, lines: u64, before: &[u64]) -> u64 {
    let end = lines + before.len() as u64;
    let last = before.iter().rev().find(|&&number| number <= end);
    let last = last.copied().unwrap_or(0);
    match random.below(100) {
        0..=19 => last + between(random, 1, 3),
        20..=34 => between(random, last + 1, lines),
        // The lines of earlier late charges, if these are accepted.
        35..=49 => lines + between(random, 0, before.len() as u64),
        50..=59 => last,
        60..=69 => between(random, 0, last),
        70..=79 => between(random, 1, lines),
        80..=84 => 0,
        85..=92 => end + between(random, 0, 40),
        93..=97 => random.pick(&FAR),
        _ => random.draw(),
    }
}

/// A word for a number, now and then with a sign and with zeros.
fn word(random: &mut Random, number: u64) -> String {
    let sign = if random.chance(15) { "+" } else { "" };
    let zeros = if random.chance(15) {
        random.between(1, 30) as usize
    } else {
        0
    };
    format!("{sign}{}{number}", "0".repeat(zeros))
}

#[cfg(test)]
mod tests {
    use super::*;
    use crate::journal::journal;
    use std::collections::BTreeSet;

    /// An answer of lines of a month, with so many millicents each.
    fn of_lines(millicents: &[i128]) -> Answer {
        let line = |&millicents: &i128| Line {
            month: if millicents < 0 { 12 } else { 0 },
            item: if millicents < 0 { 13 } else { 1 },
            therms: 0,
            millicents,
        };
        Answer::Played {
            refusals: Vec::new(),
            lines: millicents.iter().map(line).collect(),
            sum: millicents.iter().sum(),
        }
    }

    fn questions(seed: u64, answer: &Answer) -> impl Iterator<Item = Late> + '_ {
        (0..2_000).map(move |number| {
            let payments = Payments::of(seed, number, answer);
            Late::of(seed, number, answer, payments.as_ref())
        })
    }

    #[test]
    fn a_question_is_a_function_of_seed_number_and_lines() {
        let answer = of_lines(&[30_000_000, -5, 20_000_000]);
        assert!(questions(7, &answer).eq(questions(7, &answer)));
        assert!(questions(7, &answer).ne(questions(8, &answer)));
    }

    #[test]
    fn numbers_and_words_of_all_sorts_are_drawn() {
        let answer = of_lines(&[20_000_000; 12]);
        let asked: Vec<Late> = questions(1, &answer).collect();
        let share = |is: &dyn Fn(&Late) -> bool| asked.iter().filter(|late| is(late)).count();
        let pairs = |is: fn(&[u64]) -> bool| share(&|late| late.numbers.windows(2).any(is));
        let some = |is: fn(u64) -> bool| share(&|late| late.numbers.iter().any(|&n| is(n)));
        let words = |is: fn(&str) -> bool| share(&|late| late.words.iter().any(|word| is(word)));
        for (what, count) in [
            ("rising", pairs(|pair| pair[0] < pair[1] && pair[1] <= 12)),
            ("twice", pairs(|pair| pair[0] == pair[1])),
            ("falling", pairs(|pair| pair[0] > pair[1] && pair[1] > 0)),
            ("zero", some(|number| number == 0)),
            (
                "a line of a charge",
                some(|number| (13..=16).contains(&number)),
            ),
            ("beyond", some(|number| (20..100).contains(&number))),
            ("far", some(|number| number > 1 << 32)),
            ("the most", some(|number| number == u64::MAX)),
            ("a sign", words(|word| word.starts_with('+'))),
            ("zeros", words(|word| word.starts_with("00"))),
            ("both", words(|word| word.starts_with("+0"))),
            ("dashes", words(|word| word == "--")),
            ("many", share(&|late| late.numbers.len() > 50)),
        ] {
            assert!(count >= 15, "{what}: {count}");
        }
        let few = share(&|late| (1..=9).contains(&late.numbers.len()));
        assert!(few > 1_900, "{few}");
    }

    #[test]
    fn words_are_of_their_numbers() {
        for late in questions(2, &of_lines(&[5; 40])) {
            let words = late.words.iter().filter(|&word| word != "--");
            let numbers: Vec<u64> = words.map(|word| word.parse().unwrap()).collect();
            assert_eq!(numbers, late.numbers);
        }
    }

    #[test]
    fn payments_leave_what_is_aimed_at() {
        let answer = of_lines(&[30_000_000_000_000, -5, 20_000_000_000_000]);
        let mut left = BTreeSet::new();
        for number in 0..2_000 {
            let Some(payments) = Payments::of(1, number, &answer) else {
                continue;
            };
            let paid: u64 = payments.amounts.iter().sum();
            assert!(payments
                .amounts
                .iter()
                .all(|part| (1..=PAYMENT).contains(part)));
            left.insert(owed(answer.lines(), payments.line as usize) - i128::from(paid));
        }
        for sum in [
            -1, 0, 1, 999_999, 1_000_000, 1_000_001, 6_666_666, 6_700_000,
        ] {
            assert!(left.contains(&sum), "{sum}");
        }
        assert!(left.range(..-1_000_000).count() > 20);
        assert!(left.iter().filter(|&sum| sum % 200_000 == 100_000).count() > 50);
    }

    #[test]
    fn payments_stand_behind_the_journal() {
        let payments = Payments {
            line: 1,
            amounts: vec![1, 258],
        };
        let journal = journal(1, 1);
        let paid = payments.behind(&journal);
        let behind = [5, 1, 0, 0, 0, 0, 0, 0, 0, 5, 2, 1, 0, 0, 0, 0, 0, 0];
        assert_eq!(paid.strip_prefix(&journal[..]), Some(&behind[..]));
    }

    #[test]
    fn an_answer_is_held_against_lines() {
        let answer = Answer::read(
            b"refused 1 20\nno month item therms millicents\n1 0 1 0 15550000\nsum 15550000\n",
        )
        .unwrap();
        let late = Late {
            numbers: vec![7, 1, 2, 2],
            words: Vec::new(),
        };
        let check = |status, output: &str, errors: &str, answer: &Answer| {
            let run = Run {
                end: End::Status(status),
                output: output.as_bytes().to_vec(),
                errors: errors.as_bytes().to_vec(),
            };
            late.check(&run, answer)
        };
        let refused = "refused 1 20\nrefused late 7 30\nrefused late 2 32\n";
        let lines = "no month item therms millicents\n1 0 1 0 15550000\n";
        let charges = "2 12 14 0 233000\n3 12 14 0 100000\nsum 15883000\n";
        let output = format!("{refused}{lines}{charges}");
        let charged = Charges {
            accepted: 2,
            least: 1,
            refused: [(30, 1), (32, 1)].into(),
        };
        assert_eq!(check(0, &output, "", &answer), Ok(charged));
        for (from, to) in [
            ("refused 1 20\n", ""),
            (
                "refused 1 20\nrefused late 7 30\n",
                "refused late 7 30\nrefused 1 20\n",
            ),
            ("late 7 30", "late 7 27"),
            ("late 7 30", "late 07 30"),
            ("late 7 30", "late 8 30"),
            (
                "late 7 30\nrefused late 2 32",
                "late 2 32\nrefused late 7 30",
            ),
            ("refused late 7 30\n", ""),
            ("1 0 1 0 15550000", "1 0 2 0 15550000"),
            ("12 14 0 233000", "12 13 0 233000"),
            ("12 14 0 233000", "11 14 0 233000"),
            ("12 14 0 233000", "12 14 1 233000"),
            (
                "12 14 0 233000\n3 12 14 0 100000",
                "12 14 0 233250\n3 12 14 0 99750",
            ),
            (
                "12 14 0 233000\n3 12 14 0 100000",
                "12 14 0 233500\n3 12 14 0 99500",
            ),
            ("sum 15883000", "sum 15882000"),
        ] {
            let output = output.replace(from, to);
            assert!(check(0, &output, "", &answer).is_err(), "{output}");
        }
        assert!(check(1, &output, "", &answer).is_err());
        assert!(check(0, &output, "a\n", &answer).is_err());
        let too_long = "too long\n";
        let nothing = Ok(Charges::default());
        assert_eq!(check(1, too_long, "", &Answer::TooLong), nothing);
        assert!(check(0, too_long, "", &Answer::TooLong).is_err());
        assert!(check(1, too_long, "", &answer).is_err());
        assert!(check(1, &output, "", &Answer::TooLong).is_err());
    }
}
