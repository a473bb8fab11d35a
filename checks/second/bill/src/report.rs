//! What the programs print. Each row is ended by a newline, and fields are one space apart.

use crate::account::{Account, Line, RefusedRecord};
use crate::calendar::MONTHS;
use crate::cases::{account_schedule, cases, Case};
use crate::refusal::Refusal;
use crate::schedule::{Fault, Item, Price};

/// A journal of more bytes is not played.
pub const MOST_BYTES: usize = 65_536;

/// The row for a journal that is not played.
const TOO_LONG: &str = "too long\n";

/// The account that a journal makes, and what is refused of it; none of one that is too long.
fn played(journal: &[u8]) -> Option<(Account, Vec<RefusedRecord>)> {
    if journal.len() > MOST_BYTES {
        return None;
    }
    let mut account = Account::new(account_schedule());
    let refused = account.play(journal);
    Some((account, refused))
}

/// What `lines` prints of a journal: what `gasaccount` prints of it without a late charge.
pub fn lines(journal: &[u8]) -> String {
    late(journal, &[]).output
}

/// What `statements` prints of a journal behind its name: the refusals, and the printed form of
/// each month.
pub fn statements(journal: &[u8]) -> String {
    let Some((account, refused)) = played(journal) else {
        return String::from(TOO_LONG);
    };
    let months = (0..=MONTHS)
        .filter_map(|month| Some((month, account.statement(month).ok()?)))
        .map(|(month, statement)| format!("month {month}\n{}", statement.printed()));
    refused.iter().map(refused_row).chain(months).collect()
}

/// What a program prints on standard output and on standard error, and its exit status.
#[derive(Clone, PartialEq, Eq, Debug, Default)]
pub struct Printed {
    pub output: String,
    pub errors: String,
    pub status: u8,
}

impl Printed {
    /// Nothing on standard output.
    fn refused(errors: String) -> Self {
        Printed {
            output: String::new(),
            errors,
            status: 1,
        }
    }
}

/// What `gasaccount` prints of a journal: a month's statement, behind the month's lines if these
/// are asked for, and the refusals on standard error.
pub fn statement(journal: &[u8], month: u8, with_lines: bool) -> Printed {
    let Some((account, refused)) = played(journal) else {
        return Printed::refused(String::from(TOO_LONG));
    };
    match account.statement(month) {
        Ok(statement) => Printed {
            output: statement
                .clone()
                .filter(|_| with_lines)
                .map(line_row)
                .chain([statement.printed()])
                .collect(),
            errors: refused.iter().map(refused_row).collect(),
            status: 0,
        },
        Err(refusal) => no_statement(refusal, &month.to_string()),
    }
}

/// What `gasaccount` prints of a journal with late charges behind it, one up to each number: what
/// is refused of the journal and of the late charges, the lines and their sum.
pub fn late(journal: &[u8], numbers: &[usize]) -> Printed {
    let Some((mut account, refused)) = played(journal) else {
        return Printed {
            output: String::from(TOO_LONG),
            status: 1,
            ..Printed::default()
        };
    };
    let charge = |&number: &usize| {
        let refusal = account.charge_late(number).err()?;
        Some(format!("refused late {number} {}\n", refusal.number()))
    };
    let late: Vec<String> = numbers.iter().filter_map(charge).collect();
    let rows = refused
        .iter()
        .map(refused_row)
        .chain(late)
        .chain([String::from("no month item therms millicents\n")])
        .chain((1..).zip(account.lines()).map(line_row));
    Printed {
        output: rows.chain([format!("sum {}\n", account.total())]).collect(),
        ..Printed::default()
    }
}

/// What `gasaccount` prints where a word is no month of a statement.
pub fn no_statement(refusal: Refusal, word: &str) -> Printed {
    Printed::refused(format!(
        "refused {}: a statement is of a month from 0 to {MONTHS}, not of {word}\n",
        refusal.number()
    ))
}

fn refused_row(record: &RefusedRecord) -> String {
    format!("refused {} {}\n", record.number, record.refusal.number())
}

fn line_row((number, line): (usize, &Line)) -> String {
    format!(
        "{number} {} {} {} {}\n",
        line.heading.month(),
        line.heading.item(),
        line.amount.therms,
        line.amount.millicents
    )
}

/// What is printed of the fixed months: each item of each case.
pub fn prices() -> String {
    [String::from("case item millicents\n")]
        .into_iter()
        .chain((1..).zip(&cases()).flat_map(case_rows))
        .collect()
}

fn case_rows((number, case): (usize, &Case)) -> [String; 10] {
    let prices = case.schedule.prices(&case.facts);
    Item::ALL.map(|item| price_row(number, item, prices.of(item)))
}

fn price_row(case: usize, item: Item, price: Price) -> String {
    let asked = item.number();
    match price {
        Ok(millicents) => format!("{case} {asked} {millicents}\n"),
        Err(Fault { month, item, layer }) => {
            let (number, item) = (Fault::NUMBER, item.number());
            format!("{case} {asked} refused {number} {month} {item} {layer}\n")
        }
    }
}
