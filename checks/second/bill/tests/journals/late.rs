//! Late charges, by accounts whose figures are worked out by hand.

use crate::common::{balanced, worked_november, Day, Journal};
use bill::account::{Account, Line, ROOM};
use bill::report::{self, Printed};

/// What the lines of `november` add up to.
const BILL: i128 = 55_453_650;

/// November, closed without an increase, in three lines: 15,550,000 and 37,263,000, and 50 per
/// mille of both, 2,640,650.
fn november() -> Journal {
    Journal::default()
        .open(0, 0, 0, 0)
        .month(0, |day| balanced(0, day))
        .close(0, 0, 0, 0)
}

/// The three lines of November, and behind them payments until so much is owed of them.
fn owed(sum: i128) -> Journal {
    november().pay((BILL - sum).try_into().unwrap())
}

/// Makes a late charge, and answers its line's millicents, or its refusal's number.
fn charge(account: &mut Account, number: usize) -> Result<i128, u8> {
    account
        .charge_late(number)
        .map_err(|refusal| refusal.number())?;
    let line = account.lines().last().unwrap();
    assert_eq!((line.heading.month(), line.heading.item()), (12, 14));
    assert_eq!(line.amount.therms, 0);
    Ok(line.amount.millicents)
}

/// Of late charges up to these lines, each behind the others, the millicents or the refusals.
fn charged(journal: &Journal, numbers: &[usize]) -> Vec<Result<i128, u8>> {
    let mut account = journal.account();
    numbers
        .iter()
        .map(|&number| charge(&mut account, number))
        .collect()
}

#[test]
fn behind_november() {
    let journal = worked_november().pay(50_000_000);
    let numbers = [0, 4, 4, 3, 11, 13, 16];
    let answers = [
        Err(30),
        Ok(196_000),
        Err(32),
        Err(32),
        Ok(158_000),
        Ok(161_000),
        Err(30),
    ];
    assert_eq!(charged(&journal, &numbers), answers);
}

#[test]
fn behind_november_with_two_other_payments() {
    let up_to_11 = |amount| charged(&worked_november().pay(amount), &[11]);
    assert_eq!(up_to_11(55_000_000), [Ok(100_000)]);
    assert_eq!(up_to_11(60_000_000), [Err(31)]);
}

#[test]
fn what_gasaccount_prints() {
    let november = worked_november().printed();
    let lines = november.strip_suffix("sum 60558098\n").unwrap();
    let printed = |output| Printed {
        output,
        ..Printed::default()
    };
    assert_eq!(
        report::late(&worked_november().0, &[4, 5, 4]),
        printed(format!(
            "refused late 4 32\n{lines}12 12 14 0 946000\n13 12 14 0 944000\nsum 62448098\n"
        ))
    );
    // What is refused of the journal comes first.
    let journal = Journal::default().pay(1).open(0, 0, 0, 0).pay(0);
    assert_eq!(
        report::late(&journal.0, &[0, usize::MAX, 1]),
        printed(String::from(
            "refused 1 20\nrefused 3 9\nrefused late 0 30\nrefused late 18446744073709551615 30\n\
             refused late 1 30\nno month item therms millicents\nsum 0\n"
        ))
    );
}

#[test]
fn a_journal_that_is_too_long_is_not_charged_for() {
    let printed = Printed {
        output: String::from("too long\n"),
        status: 1,
        ..Printed::default()
    };
    assert_eq!(report::late(&[0; 65_537], &[1]), printed);
    assert_eq!(report::late(&[0; 65_536], &[1]).status, 0);
}

#[test]
fn how_much_is_charged_for() {
    for (sum, answer) in [
        (-1, Err(31)),
        (0, Err(31)),
        (1_000_000, Err(31)),
        (1_000_001, Ok(100_000)),
        (6_666_667, Ok(100_000)),
        (6_699_999, Ok(100_000)),
        (6_700_000, Ok(101_000)),
        (6_900_000, Ok(104_000)),
        (10_033_330, Ok(150_000)),
    ] {
        assert_eq!(charged(&owed(sum), &[3]), [answer], "{sum}");
        // The payment is line 4, and counts once.
        assert_eq!(charged(&owed(sum), &[4]), [answer], "{sum}");
    }
}

/// 6,000,000 therms are bought for nearly 10^13 millicents. Each late charge makes what is owed
/// grow by 1.5 percent.
#[test]
fn the_most_that_is_charged_for() {
    let journal = Journal::default()
        .open(0, 0, 0, 0)
        .month(0, |day| Day {
            nomination: 200_000,
            receipts: 0,
            reading: 200_000,
            ..balanced(0, day)
        })
        .close(0, 1_300_000, 0, 0);
    let mut account = journal.account();
    let mut sum = account.total();
    assert!(sum > 9_000_000_000_000);
    while sum <= 600_000_000_000_000 {
        let last = account.lines().len();
        let line = charge(&mut account, last).unwrap();
        assert!((200 * line - 3 * sum).abs() <= 100_000);
        sum += line;
    }
    let last = account.lines().len();
    assert_eq!(charge(&mut account, last), Err(31));
    assert_eq!(charge(&mut account, last + 1), Err(30));
}

#[test]
fn payments_count_wherever_they_stand() {
    let bill = BILL as u64;
    let before = Journal::default().open(0, 0, 0, 0).pay(bill - 6_900_000);
    let before = before.month(0, |day| balanced(0, day)).close(0, 0, 0, 0);
    assert_eq!(
        charged(&before, &[1, 2, 4]),
        [Err(31), Err(31), Ok(104_000)]
    );
    let in_parts = november().pay(bill - 7_000_000).pay(40_000).pay(60_000);
    for number in 3..=6 {
        assert_eq!(charged(&in_parts, &[number]), [Ok(104_000)]);
    }
}

/// Line 5 is the charge on the first three. It is owed from line 5 on.
#[test]
fn a_late_charge_is_owed_as_other_lines_are() {
    let journal = owed(6_700_000);
    // 6,801,000 are 102.015 cents, and 6,903,000 are 103.545.
    let answers = [Ok(101_000), Ok(101_000), Ok(102_000), Ok(104_000)];
    assert_eq!(charged(&journal, &[3, 4, 5, 6]), answers);
}

#[test]
fn each_is_for_later_lines_than_the_last_accepted_one() {
    let numbers = [2, 1, 9, 2, 3, 3, 2, 4];
    let answers = [
        Ok(792_000),
        Err(32),
        Err(30),
        Err(32),
        Ok(832_000),
        Err(32),
        Err(32),
        Ok(844_000),
    ];
    // 52,813,000 are 792.195 cents, 55,453,650 are 831.80475 and 56,245,650 are 843.68475.
    assert_eq!(charged(&november(), &numbers), answers);
}

#[test]
fn the_order_of_a_late_charges_tests() {
    let journal = |payments| Journal::default().open(0, 0, 0, 0).pay_times(1, payments);
    let not_opened = Journal::default().pay(1);
    for number in [0, 1, 2, usize::MAX] {
        assert_eq!(charged(&not_opened, &[number]), [Err(20)]);
        assert_eq!(charged(&journal(ROOM), &[number]), [Err(29)]);
    }
    for number in [0, 3, usize::MAX] {
        assert_eq!(charged(&journal(2), &[number]), [Err(30)]);
    }
    assert_eq!(charged(&journal(ROOM - 1), &[ROOM]), [Err(30)]);
    assert_eq!(charged(&journal(ROOM - 1), &[ROOM - 1]), [Err(31)]);
    // What is owed comes before the last line charged for.
    let mut account = november().account();
    assert!(charge(&mut account, 3).is_ok());
    account.play(&Journal::default().pay(BILL as u64).0);
    assert_eq!(charge(&mut account, 3), Err(31));
    assert_eq!(charge(&mut account, 1), Err(31));
    // The last line that there is room for.
    let nearly_full = november().pay_times(1, ROOM - 4);
    let answers = [Ok(832_000), Err(29)];
    assert_eq!(charged(&nearly_full, &[3, 4]), answers);
}

/// No call behind a late charge changes its line, and it changes none that they write.
#[test]
fn other_calls_go_on_as_without_it() {
    let calls = [
        Journal::default().correct(Day {
            reading: 90,
            ..balanced(0, 30)
        }),
        Journal::default().settle(0, 20).pay(7),
        Journal::default()
            .month(1, |day| balanced(1, day))
            .close(1, 30_000, 0, 0),
    ];
    let (mut with, mut without) = (november().account(), november().account());
    let mut charges = Vec::new();
    for calls in &calls {
        let last = with.lines().len();
        charges.push((last + 1, charge(&mut with, last).unwrap()));
        assert_eq!(with.play(&calls.0), without.play(&calls.0));
    }
    assert_eq!(with.year(), without.year());
    let is_late = |line: &&Line| line.heading.item() == 14;
    let others: Vec<&Line> = with.lines().iter().filter(|line| !is_late(line)).collect();
    assert!(others.into_iter().eq(without.lines()));
    let late: Vec<(usize, i128)> = (1..)
        .zip(with.lines())
        .filter(|(_, line)| is_late(line))
        .map(|(number, line)| (number, line.amount.millicents))
        .collect();
    assert_eq!(late, charges);
}

#[test]
fn a_statement_of_the_year_has_them() {
    let mut account = worked_november().account();
    for number in [4, 5] {
        charge(&mut account, number).unwrap();
    }
    let printed = |month| account.statement(month).unwrap().printed();
    assert_eq!(printed(12), "11 -2047\n12 -41\n14 1890\ntotal -197899\n");
    assert_eq!(
        printed(0),
        worked_november().account().statement(0).unwrap().printed()
    );
}
