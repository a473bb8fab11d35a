//! What a journal shows by its own records: tests that fail together, days
//! and months about their tolerances.

use crate::book::Book;
use crate::records::{read, Day, Record};
use std::collections::BTreeSet;

pub fn telling(journal: &[u8]) -> BTreeSet<String> {
    let mut names = BTreeSet::new();
    let mut book = Book::new();
    for record in read(journal) {
        let failing = book.failing(record);
        for (&low, &high) in pairs(&failing) {
            names.insert(format!("{} fails {low} and {high}", word(record)));
        }
        book.call(record);
        if !failing.is_empty() {
            continue;
        }
        match record {
            Record::Post(day) | Record::Correct(day) => {
                names.extend(daily(&day));
                if day.month < book.closed() {
                    names.extend(monthly(&book, day.month));
                }
            }
            Record::Close(closing) => names.extend(monthly(&book, closing.month)),
            Record::Open(_) | Record::Pay(_) | Record::Settle(_) => {}
        }
    }
    names
}

fn word(record: Record) -> &'static str {
    match record {
        Record::Open(_) => "open",
        Record::Post(_) => "post",
        Record::Correct(_) => "correct",
        Record::Close(_) => "close",
        Record::Pay(_) => "pay",
        Record::Settle(_) => "settle",
    }
}

fn pairs(numbers: &BTreeSet<u8>) -> impl Iterator<Item = (&u8, &u8)> {
    numbers
        .iter()
        .flat_map(|low| numbers.range(low + 1..).map(move |high| (low, high)))
}

/// How a day lies to a twentieth of its nomination.
fn daily(day: &Day) -> Option<String> {
    let side = if day.reading > day.nomination {
        "above"
    } else {
        "below"
    };
    let distance = day.reading.abs_diff(day.nomination);
    let tolerance = day.nomination / 20;
    let place = if distance == 0 {
        return None;
    } else if distance * 20 == day.nomination {
        "at"
    } else if distance == tolerance {
        "just within"
    } else if distance == tolerance + 1 {
        "just past"
    } else {
        "away from"
    };
    let season = if day.month <= 4 { "winter" } else { "summer" };
    Some(format!(
        "day of kind {} in {season}, curtailed {}: {side} {place} its tolerance",
        day.kind, day.curtailed
    ))
}

/// How a closed month lies to its tolerance of 2 percent, which is of the
/// receipts where gas is bought, and of the readings where it is sold.
fn monthly(book: &Book, month: u8) -> Option<String> {
    let (receipts, readings) = book.totals(month);
    let apart = receipts.abs_diff(readings);
    let (way, base) = if readings > receipts {
        ("bought", receipts)
    } else {
        ("sold", readings)
    };
    let place = if apart == 0 {
        return None;
    } else if base == 0 {
        "on nothing"
    } else if apart * 50 == base {
        "at its tolerance"
    } else if apart == base / 50 + 1 {
        "just past its tolerance"
    } else if apart == base / 50 {
        "just within its tolerance"
    } else if apart * 50 <= base {
        "within its tolerance"
    } else {
        "past its tolerance"
    };
    Some(format!("month: {way} {place}"))
}

#[cfg(test)]
mod tests {
    use super::*;
    use crate::records::{Opening, Settlement};

    #[test]
    fn tests_that_fail_together_are_told() {
        let mut journal = Record::Settle(Settlement {
            final_increase: 1_001,
            interest: 0,
        })
        .bytes();
        Record::Open(Opening {
            leap: 0,
            increase: 0,
            first: 0,
            last: 0,
        })
        .write(&mut journal);
        Record::Post(Day {
            day: 1,
            nomination: 100,
            reading: 105,
            ..Day::default()
        })
        .write(&mut journal);
        let told = telling(&journal);
        for name in [
            "settle fails 8 and 20",
            "settle fails 8 and 27",
            "settle fails 20 and 27",
            "day of kind 0 in winter, curtailed 0: above at its tolerance",
        ] {
            assert!(told.contains(name), "{name}");
        }
        assert_eq!(told.len(), 4);
    }
}
