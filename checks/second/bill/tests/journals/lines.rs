//! What `lines` prints, by journals whose figures are worked out by hand.

use crate::common::{balanced, worked_november, Day, Journal, DAYS};

#[test]
fn the_worked_november() {
    let expected = "\
no month item therms millicents
1 0 1 0 15550000
2 0 2 0 37263000
3 0 9 0 7235381
4 0 10 0 3002419
5 0 2 0 -124210
6 0 4 0 65700
7 0 5 10 -310000
8 0 9 0 -17017
9 0 10 0 -19276
10 12 11 0 -2046960
11 12 12 0 -40939
sum 60558098
";
    assert_eq!(worked_november().printed(), expected);
}

#[test]
fn nothing_at_all() {
    assert_eq!(
        Journal::default().printed(),
        "no month item therms millicents\nsum 0\n"
    );
}

#[test]
fn too_long_by_a_byte() {
    // Unknown kinds: the first is refused, and nothing behind it is read.
    let refused = "refused 1 1\nno month item therms millicents\nsum 0\n";
    assert_eq!(bill::report::lines(&vec![0; 65_536]), refused);
    assert_eq!(bill::report::lines(&vec![0; 65_537]), "too long\n");
}

#[test]
fn refused_records_are_counted_and_passed_over() {
    let mut journal = Journal::default()
        .pay(1)
        .open(0, 0, 0, 0)
        .open(0, 0, 0, 0)
        .pay(7);
    journal.0.push(5);
    assert_eq!(
        journal.rows(),
        [
            "refused 1 20",
            "refused 3 21",
            "refused 5 2",
            "no month item therms millicents",
            "1 12 13 0 -7",
            "sum -7",
        ]
    );
}

/// A correction makes another day the first unauthorized one, and so changes another month.
#[test]
fn another_first_unauthorized_day() {
    let unauthorized = |month, day| Day {
        curtailed: 1,
        after_notice: 10,
        ..balanced(month, day)
    };
    let journal = Journal::default()
        .open(0, 0, 0, 0)
        .month(0, |day| match day {
            30 => unauthorized(0, 30),
            _ => balanced(0, day),
        })
        .month(1, |day| match day {
            1 => unauthorized(1, 1),
            _ => balanced(1, day),
        })
        .close(0, 0, 0, 0)
        .close(1, 0, 0, 0)
        .correct(balanced(0, 30));
    // November: 15,550,000 + 37,263,000 + 3,000,000, and 50 per mille of these. December has one
    // day more, so 12,421 * 3,100, and 6,000,000 at first: 60,055,100 and its 50 per mille,
    // 3,002,755. Both lose 3,000,000 and 50 per mille of that.
    assert_eq!(
        journal.rows(),
        [
            "no month item therms millicents",
            "1 0 1 0 15550000",
            "2 0 2 0 37263000",
            "3 0 6 0 3000000",
            "4 0 10 0 2790650",
            "5 1 1 0 15550000",
            "6 1 2 0 38505100",
            "7 1 6 0 6000000",
            "8 1 10 0 3002755",
            "9 0 6 0 -3000000",
            "10 0 10 0 -150000",
            "11 1 6 0 -3000000",
            "12 1 10 0 -150000",
            "sum 115361505",
        ]
    );
}

/// Refund and interest are worked out anew by each correction once settled, also where that makes
/// a line above 0; and where the final price is the greater, nothing is charged for that.
#[test]
fn refunds_after_the_settlement() {
    let journal = |final_increase| {
        Journal::default()
            .open(0, 137, 0, 0)
            .month(0, |day| balanced(0, day))
            .close(0, 30_000, 1_000, 1_000)
            .settle(final_increase, 20)
            .correct(Day {
                reading: 90,
                ..balanced(0, 30)
            })
    };
    // At a reading of 100: item 9 is 5,281,300 of 52,813,000, and item 10 is 50 per mille of
    // 58,094,300, so 2,904,715. The final price is 60,999,015, the refund 63,050,800 less that,
    // 2,051,785, and the interest 20 per mille, 41,035.7. After it they are those of the worked
    // November.
    let rows = journal(100).rows();
    assert_eq!(rows[5..7], ["5 12 11 0 -2051785", "6 12 12 0 -41036"]);
    assert_eq!(rows[12..14], ["12 12 11 0 4825", "13 12 12 0 97"]);
    assert_eq!(rows[14], "sum 60558098");
    let charged = journal(138).rows();
    assert!(charged.iter().all(|row| !row.contains(" 12 1")));
}

#[test]
fn therms_without_millicents_make_a_line() {
    let journal = Journal::default()
        .open(0, 0, 0, 0)
        .month(0, |day| Day {
            receipts: 101,
            ..balanced(0, day)
        })
        .close(0, 0, 0, 0);
    assert_eq!(journal.rows()[3], "3 0 5 30 0");
}

#[test]
fn the_order_of_an_openings_tests() {
    let once = Journal::default();
    assert_eq!(once.clone().open(2, 1_001, 12, 0).last(1), Some(3));
    assert_eq!(once.clone().open(2, 1_001, 0, 12).last(1), Some(3));
    assert_eq!(once.clone().open(2, 1_001, 1, 0).last(1), Some(3));
    assert_eq!(once.clone().open(2, 1_001, 0, 11).last(1), Some(6));
    assert_eq!(once.clone().open(1, 1_001, 11, 11).last(1), Some(8));
    assert_eq!(once.clone().open(1, 1_000, 11, 11).last(1), None);
    let twice = once.open(1, 1_000, 0, 0);
    assert_eq!(twice.open(2, 1_001, 12, 0).last(2), Some(21));
}

#[test]
fn the_order_of_a_days_tests() {
    let opened = Journal::default().open(0, 0, 0, 0);
    let wrong = Day {
        month: 12,
        day: 31,
        kind: 4,
        curtailed: 2,
        nomination: 200_001,
        ..Day::default()
    };
    assert_eq!(Journal::default().post(wrong).last(1), Some(20));
    assert_eq!(Journal::default().correct(wrong).last(1), Some(20));
    let mut day = wrong;
    let post = |day| opened.clone().post(day).last(2);
    let correct = |day| opened.clone().correct(day).last(2);
    let both = |day| {
        assert_eq!(post(day), correct(day));
        post(day)
    };
    assert_eq!(both(day), Some(3));
    day.month = 0;
    assert_eq!(both(day), Some(4));
    day.day = 0;
    assert_eq!(both(day), Some(4));
    day.day = 30;
    assert_eq!(both(day), Some(5));
    day.kind = 3;
    assert_eq!(both(day), Some(6));
    day.curtailed = 1;
    assert_eq!(both(day), Some(7));
    day.nomination = 200_000;
    assert_eq!(post(day), None);
    assert_eq!(correct(day), Some(23));
    let posted = opened.clone().post(day);
    assert_eq!(posted.clone().post(day).last(3), Some(22));
    assert_eq!(posted.clone().correct(day).last(3), None);
    // The numbers come before what is known of the day.
    day.kind = 4;
    assert_eq!(posted.clone().post(day).last(3), Some(5));
}

#[test]
fn the_bounds_of_a_days_numbers() {
    let most = Day {
        month: 0,
        day: 1,
        kind: 3,
        curtailed: 1,
        nomination: 200_000,
        receipts: 200_000,
        reading: 200_000,
        after_notice: 200_000,
        supply_cost: 2_000_000,
        variance_rate: 2_000_000,
    };
    let post = |change: fn(&mut Day)| {
        let mut day = most;
        change(&mut day);
        Journal::default().open(0, 0, 0, 0).post(day).last(2)
    };
    assert_eq!(post(|_| ()), None);
    assert_eq!(post(|day| day.nomination += 1), Some(7));
    assert_eq!(post(|day| day.receipts += 1), Some(7));
    assert_eq!(post(|day| day.reading += 1), Some(7));
    assert_eq!(post(|day| day.after_notice += 1), Some(7));
    assert_eq!(post(|day| day.reading -= 1), Some(7));
    assert_eq!(post(|day| day.supply_cost += 1), Some(7));
    assert_eq!(post(|day| day.variance_rate += 1), Some(7));
}

#[test]
fn february_by_the_leap_mark() {
    let post = |leap, day| {
        Journal::default()
            .open(leap, 0, 0, 0)
            .post(balanced(3, day))
            .last(2)
    };
    assert_eq!(post(0, 28), None);
    assert_eq!(post(0, 29), Some(4));
    assert_eq!(post(1, 29), None);
    assert_eq!(post(1, 30), Some(4));
    assert_eq!(post(1, 255), Some(4));
}

#[test]
fn the_order_of_a_closings_tests() {
    let close = |journal: &Journal, month, index| journal.clone().close(month, index, 0, 0);
    let opened = Journal::default().open(0, 0, 0, 0);
    assert_eq!(close(&Journal::default(), 12, 2_000_001).last(1), Some(20));
    assert_eq!(close(&opened, 12, 2_000_001).last(2), Some(3));
    assert_eq!(close(&opened, 1, 2_000_001).last(2), Some(7));
    assert_eq!(close(&opened, 1, 2_000_000).last(2), Some(24));
    assert_eq!(close(&opened, 0, 2_000_000).last(2), Some(25));
    let limits = |x, y, z| opened.clone().close(1, x, y, z).last(2);
    assert_eq!(limits(0, 2_000_001, 0), Some(7));
    assert_eq!(limits(0, 0, 2_000_001), Some(7));
    assert_eq!(limits(2_000_000, 2_000_000, 2_000_000), Some(24));
    let complete = opened.month(0, |day| balanced(0, day));
    assert_eq!(close(&complete, 0, 2_000_000).last(32), None);
    let closed = close(&complete, 0, 0);
    assert_eq!(close(&closed, 0, 0).last(33), Some(24));
    assert_eq!(close(&closed, 1, 0).last(33), Some(25));
}

#[test]
fn no_month_is_closed_after_all_twelve() {
    let year = whole_year(137);
    let records = 1 + 365 + 12;
    for month in 0..12 {
        let again = year.clone().close(month, 0, 0, 0);
        assert_eq!(again.last(records + 1), Some(24));
    }
}

#[test]
fn the_order_of_a_payments_tests() {
    let pay = |amount| Journal::default().open(0, 0, 0, 0).pay(amount).last(2);
    assert_eq!(Journal::default().pay(0).last(1), Some(20));
    assert_eq!(pay(0), Some(9));
    assert_eq!(pay(1), None);
    assert_eq!(pay(10_000_000_000_000), None);
    assert_eq!(pay(10_000_000_000_001), Some(9));
    assert_eq!(pay(u64::MAX), Some(9));
    let full = Journal::default().open(0, 0, 0, 0).pay_times(1, 1_024);
    assert_eq!(full.clone().pay(0).last(1_026), Some(9));
    assert_eq!(full.pay(1).last(1_026), Some(29));
}

#[test]
fn the_order_of_a_settlements_tests() {
    assert_eq!(Journal::default().settle(1_001, 0).last(1), Some(20));
    let opened = Journal::default().open(0, 137, 0, 1);
    assert_eq!(opened.clone().settle(1_001, 0).last(2), Some(8));
    assert_eq!(opened.clone().settle(0, 1_001).last(2), Some(8));
    assert_eq!(opened.clone().settle(1_000, 1_000).last(2), Some(27));
    let first = opened
        .month(0, |day| balanced(0, day))
        .close(0, 0, 0, 0)
        .month(1, |day| balanced(1, day));
    assert_eq!(first.clone().settle(0, 0).last(64), Some(27));
    let settled = first.close(1, 0, 0, 0).settle(0, 0);
    assert_eq!(settled.last(65), None);
    assert_eq!(settled.clone().settle(1_001, 0).last(66), Some(8));
    assert_eq!(settled.clone().settle(0, 0).last(66), Some(26));
    assert_eq!(settled.clone().open(0, 0, 0, 0).last(66), Some(21));
    // A settled account still takes the rest.
    assert_eq!(settled.clone().post(balanced(2, 1)).last(66), None);
    assert_eq!(settled.clone().correct(balanced(0, 1)).last(66), None);
    assert_eq!(settled.clone().pay(1).last(66), None);
}

/// 6,000,000 therms are sold at 80 percent of 2,000,000 and at Z on top: 9.6 * 10^12 and Z times
/// 6,000,000.
#[test]
fn a_price_that_goes_too_far() {
    let sold = |month, day| Day {
        month,
        day,
        receipts: 200_000,
        ..Day::default()
    };
    let month = Journal::default()
        .open(0, 0, 0, 0)
        .month(0, |day| sold(0, day));
    let close = |firm| month.clone().close(0, 2_000_000, 0, firm);
    assert_eq!(close(66_666).last(32), None);
    assert_eq!(close(66_666).rows()[2], "2 0 5 6000000 -9999996000000");
    assert_eq!(close(66_667).last(32), Some(28));
    assert_eq!(close(66_667).rows()[2], "sum 0");
    // A refused close leaves the month open.
    assert_eq!(close(66_667).close(1, 0, 0, 0).refused()[1], (33, 24));
    assert_eq!(close(66_667).close(0, 0, 0, 0).refused(), [(32, 28)]);
    // A correction is refused by it too, and leaves the day as it was.
    let smaller = Day {
        receipts: 100_000,
        ..sold(0, 30)
    };
    let corrected = month
        .clone()
        .correct(smaller)
        .close(0, 2_000_000, 0, 66_667)
        .correct(sold(0, 30));
    assert_eq!(corrected.last(34), Some(28));
    // The fault comes before the room.
    let full = month.clone().pay_times(1, 1_024);
    let fault = full.clone().close(0, 2_000_000, 0, 66_667);
    assert_eq!(fault.last(1 + 30 + 1_024 + 1), Some(28));
    let room = full.close(0, 2_000_000, 0, 0);
    assert_eq!(room.last(1 + 30 + 1_024 + 1), Some(29));
}

#[test]
fn the_room_of_1_024_lines() {
    let month = |payments| {
        Journal::default()
            .open(0, 137, 0, 0)
            .pay_times(1, payments)
            .month(0, |day| balanced(0, day))
            .close(0, 30_000, 1_000, 1_000)
    };
    // The close writes four lines.
    assert_eq!(month(1_021).last(1 + 1_021 + 31), Some(29));
    assert_eq!(month(1_021).rows().len(), 1 + 1 + 1_021 + 1);
    let full = month(1_020);
    let records = 1 + 1_020 + 31;
    assert_eq!(full.last(records), None);
    let other = Day {
        reading: 90,
        ..balanced(0, 30)
    };
    assert_eq!(full.clone().pay(1).last(records + 1), Some(29));
    assert_eq!(full.clone().correct(other).last(records + 1), Some(29));
    assert_eq!(full.clone().settle(136, 0).last(records + 1), Some(29));
    // No line is due by these.
    let same = balanced(0, 30);
    assert_eq!(full.clone().correct(same).last(records + 1), None);
    assert_eq!(full.clone().settle(137, 1_000).last(records + 1), None);
    assert_eq!(full.clone().settle(138, 1_000).last(records + 1), None);
    assert_eq!(full.clone().post(balanced(1, 1)).last(records + 1), None);
    let open_month = full.post(balanced(1, 1)).correct(balanced(1, 1));
    assert_eq!(open_month.last(records + 2), None);
}

/// A whole year of balanced days, closed, with every month an interim month.
fn whole_year(increase: u16) -> Journal {
    let opened = Journal::default().open(0, increase, 0, 11);
    (0..12).fold(opened, |journal, month| {
        journal
            .month(month, |day| balanced(month, day))
            .close(month, 30_000, 1_000, 1_000)
    })
}

/// As many corrections of a closed and settled year as a journal has room for.
#[test]
fn a_journal_full_of_corrections() {
    let mut journal = whole_year(137).settle(100, 20);
    let mut number = 0;
    while journal.0.len() + 29 <= 65_536 {
        let month = number % 12;
        let days = usize::from(DAYS[month]);
        let day = 1 + number / 12 % days;
        journal = journal.correct(Day {
            reading: 100 + (number % 7) as u32,
            ..balanced(month as u8, day as u8)
        });
        number += 1;
    }
    assert!(number > 1_880);
    let rows = journal.rows();
    assert!(rows.iter().any(|row| row.ends_with(" 29")));
}
