//! What `statements` and `gasaccount` print, by journals whose figures are worked out by hand.

use bill::refusal::Refusal;
use bill::report::{self, Printed};

use crate::common::{balanced, worked_november, Day, Journal, DAYS};

impl Journal {
    /// The printed form of a month.
    fn form(&self, month: u8) -> String {
        self.account().statement(month).unwrap().printed()
    }
}

/// A statement's lines: their numbers, and their items.
fn stepped<'a>(
    statement: impl Iterator<Item = (usize, &'a bill::account::Line)>,
) -> Vec<(usize, u8)> {
    statement
        .map(|(number, line)| (number, line.heading.item()))
        .collect()
}

/// November balanced, closed without an increase, and with no rates.
fn november(day: impl Fn(u8) -> Day) -> Journal {
    Journal::default()
        .open(0, 0, 0, 0)
        .month(0, day)
        .close(0, 0, 0, 0)
}

#[test]
fn the_worked_november() {
    let november = "1 15550\n2 37139\n4 66\n5 -310\n9 7218\n10 2983\ntotal 62645997\n";
    let whole_year = "11 -2047\n12 -41\ntotal -2087899\n";
    assert_eq!(worked_november().form(0), november);
    assert_eq!(worked_november().form(12), whole_year);
    for month in 1..12 {
        assert_eq!(worked_november().form(month), "total 0\n");
    }
}

#[test]
fn months_0_to_12_and_no_other() {
    for account in [Journal::default().account(), worked_november().account()] {
        for month in 0..=u8::MAX {
            let refusal = account.statement(month).err();
            assert_eq!(refusal, (month > 12).then_some(Refusal::Month));
        }
    }
    assert_eq!(Refusal::Month.number(), 3);
}

#[test]
fn each_line_of_the_month_once_with_its_number_among_all() {
    let account = worked_november().account();
    let items = [1, 2, 9, 10, 2, 4, 5, 9, 10];
    let expected: Vec<(usize, u8)> = (1..).zip(items).collect();
    assert_eq!(stepped(account.statement(0).unwrap()), expected);
    let expected = [(10, 11), (11, 12)];
    assert_eq!(stepped(account.statement(12).unwrap()), expected);
    assert_eq!(stepped(account.statement(1).unwrap()), []);
}

#[test]
fn lines_of_other_months_are_passed_over() {
    // Two payments, four lines of November, and a payment behind them.
    let account = Journal::default()
        .open(0, 137, 0, 0)
        .pay(1)
        .pay(2)
        .month(0, |day| balanced(0, day))
        .close(0, 30_000, 1_000, 1_000)
        .pay(3)
        .account();
    let expected = [(1, 13), (2, 13), (7, 13)];
    assert_eq!(stepped(account.statement(12).unwrap()), expected);
    let expected = [(3, 1), (4, 2), (5, 9), (6, 10)];
    assert_eq!(stepped(account.statement(0).unwrap()), expected);
}

#[test]
fn a_statement_stays_at_its_end_and_a_copy_goes_on_alone() {
    let account = worked_november().account();
    let mut statement = account.statement(12).unwrap();
    assert_eq!(statement.next().map(|(number, _)| number), Some(10));
    let mut copy = statement.clone();
    assert_eq!(copy.next().map(|(number, _)| number), Some(11));
    for _ in 0..3 {
        assert_eq!(copy.next(), None);
    }
    // Its form is of the whole month, wherever it stands.
    assert_eq!(copy.printed(), worked_november().form(12));
    assert_eq!(statement.next().map(|(number, _)| number), Some(11));
}

#[test]
fn half_a_cent_above_and_below_zero() {
    let used = |first| {
        november(move |day| Day {
            reading: if day == 1 { first } else { 0 },
            receipts: if day == 1 { first } else { 0 },
            nomination: if day == 1 { first } else { 0 },
            ..balanced(0, day)
        })
    };
    // 12,421 times 500 therms is 6,210,500 millicents, and the franchise's 50 per mille of
    // 21,760,500 are 1,088,025.
    let form = "1 15550\n2 6211\n10 1088\ntotal 22848525\n";
    assert_eq!(used(500).form(0), form);
    let paid = |amounts: &[u64]| {
        let opened = Journal::default().open(0, 0, 0, 0);
        let pay = |journal: Journal, &amount: &u64| journal.pay(amount);
        amounts.iter().fold(opened, pay).form(12)
    };
    assert_eq!(paid(&[499]), "13 0\ntotal -499\n");
    assert_eq!(paid(&[500]), "13 -1\ntotal -500\n");
    assert_eq!(paid(&[1_499]), "13 -1\ntotal -1499\n");
    assert_eq!(paid(&[1_500]), "13 -2\ntotal -1500\n");
    // The sum is rounded, and not the lines.
    assert_eq!(paid(&[500, 500]), "13 -1\ntotal -1000\n");
    assert_eq!(paid(&[499, 1]), "13 -1\ntotal -500\n");
}

/// The reading of a day goes down by 10 and back again: items 4 and 5 have lines that add up to 0.
#[test]
fn items_that_cancel_out_have_a_row() {
    let journal = november(|day| balanced(0, day))
        .correct(Day {
            reading: 90,
            ..balanced(0, 30)
        })
        .correct(balanced(0, 30));
    // Items 1 and 2 are 52,813,000, and 50 per mille of that is 2,640,650.
    let form = "1 15550\n2 37263\n4 0\n5 0\n10 2641\ntotal 55453650\n";
    assert_eq!(journal.form(0), form);
}

#[test]
fn an_item_of_therms_alone_has_a_row() {
    let journal = november(|day| Day {
        receipts: 101,
        ..balanced(0, day)
    });
    let form = "1 15550\n2 37263\n5 0\n10 2641\ntotal 55453650\n";
    assert_eq!(journal.form(0), form);
}

#[test]
fn a_month_without_lines_has_its_total_alone() {
    let opened = Journal::default().open(0, 137, 0, 11).post(balanced(0, 1));
    for journal in [Journal::default(), opened] {
        for month in 0..=12 {
            assert_eq!(journal.form(month), "total 0\n");
        }
    }
}

#[test]
fn all_months_of_a_journal() {
    let empty = |months: std::ops::RangeInclusive<u8>| -> String {
        months
            .map(|month| format!("month {month}\ntotal 0\n"))
            .collect()
    };
    let printed = |journal: &Journal| report::statements(&journal.0);
    assert_eq!(printed(&Journal::default()), empty(0..=12));
    let (november, whole_year) = (worked_november().form(0), worked_november().form(12));
    assert_eq!(
        printed(&worked_november()),
        format!("month 0\n{november}{}month 12\n{whole_year}", empty(1..=11))
    );
    let refused = Journal::default().pay(1).open(0, 0, 0, 0).pay(0).pay(7);
    assert_eq!(
        printed(&refused),
        format!(
            "refused 1 20\nrefused 3 9\n{}month 12\n13 0\ntotal -7\n",
            empty(0..=11)
        )
    );
}

/// Each closed month has lines, and so has the year as a whole once it is settled.
#[test]
fn a_whole_year() {
    let opened = Journal::default().open(0, 137, 0, 11);
    let year = (0..12).fold(opened, |journal, month| {
        journal
            .month(month, |day| balanced(month, day))
            .close(month, 30_000, 1_000, 1_000)
    });
    let year = year.settle(137, 0).pay(1_000);
    for month in 0..12 {
        // The customer charge, and 100 therms a day: 38,505.1, 37,263 or 34,778.8 cents.
        let used = match DAYS[usize::from(month)] {
            31 => 38_505,
            30 => 37_263,
            _ => 34_779,
        };
        let form = year.form(month);
        let rows: Vec<&str> = form.lines().collect();
        assert_eq!(rows.len(), 5);
        assert_eq!(rows[0], "1 15550");
        assert_eq!(rows[1], format!("2 {used}"));
    }
    assert_eq!(year.form(12), "13 -1\ntotal -1000\n");
}

#[test]
fn a_journal_that_is_too_long_has_no_statement() {
    let longest = vec![0; 65_536];
    let longer = vec![0; 65_537];
    assert!(report::statements(&longest).starts_with("refused 1 1\nmonth 0\n"));
    assert_eq!(report::statements(&longer), "too long\n");
    assert_eq!(report::statement(&longest, 0, true).status, 0);
    let printed = Printed {
        output: String::new(),
        errors: String::from("too long\n"),
        status: 1,
    };
    assert_eq!(report::statement(&longer, 0, true), printed);
}

#[test]
fn lines_come_before_the_form_and_refusals_elsewhere() {
    let mut journal = worked_november().pay(0);
    journal.0.push(9);
    let form = worked_november().form(12);
    let printed = |output| Printed {
        output,
        errors: String::from("refused 35 9\nrefused 36 1\n"),
        status: 0,
    };
    let statement = |with_lines| report::statement(&journal.0, 12, with_lines);
    assert_eq!(statement(false), printed(form.clone()));
    let lines = "10 12 11 0 -2046960\n11 12 12 0 -40939\n";
    assert_eq!(statement(true), printed(format!("{lines}{form}")));
}

#[test]
fn another_month_is_refused() {
    let printed = |word| Printed {
        output: String::new(),
        errors: format!("refused 3: a statement is of a month from 0 to 12, not of {word}\n"),
        status: 1,
    };
    for word in ["13", "255", "256", "x", "1.5", ""] {
        let refusal = bill::statement::month(word).unwrap_err();
        assert_eq!(report::no_statement(refusal, word), printed(word));
    }
    assert_eq!(report::statement(&[], 13, false), printed("13"));
}
