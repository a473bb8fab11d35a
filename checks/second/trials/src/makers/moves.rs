//! Corrections that make another day the year's first unauthorized one, in
//! the same month or in another.

use super::course::{correct_some, post_each};
use super::manner::{closing, opening_within, payment, plain_day, settlement, Manner};
use crate::book::Book;
use crate::random::Random;
use crate::records::{Day, Record};

pub fn moves(random: &mut Random) -> Vec<u8> {
    let mut book = Book::new();
    let months = random.pick(&[1, 2, 2, 2, 3]);
    let opening = opening_within(random, months);
    book.call(Record::Open(opening));
    let therms = random.between(1, 50);
    let often = random.pick(&[0, 2, 5, 15]);
    let settled_after = random.byte_between(opening.last, months - 1);
    let settlement = settlement(random, opening);
    for month in 0..months {
        post_each(&mut book, month, |day| {
            if random.chance(often) {
                curtailed_day(random, month, day, therms)
            } else {
                plain_day(month, day, therms)
            }
        });
        move_some(random, &mut book, therms, 2);
        let closing = closing(random, month);
        book.call(Record::Close(closing));
        move_some(random, &mut book, therms, 4);
        if month == settled_after {
            book.call(Record::Settle(settlement));
        }
        if random.chance(20) {
            let amount = payment(random);
            book.call(Record::Pay(amount));
        }
    }
    // A later, open month may have the first unauthorized day as well.
    if random.chance(30) {
        let day = random.byte_between(1, 28);
        let day = curtailed_day(random, months, day, therms);
        book.call(Record::Post(day));
    }
    move_some(random, &mut book, therms, 14);
    let manner = Manner::small(random);
    correct_some(random, &mut book, &manner, 2);
    book.into_bytes()
}

/// A curtailed day, with therms after the notice or without.
fn curtailed_day(random: &mut Random, month: u8, day: u8, therms: u32) -> Day {
    let plain = plain_day(month, day, therms);
    Day {
        curtailed: u8::from(random.chance(85)),
        after_notice: random.pick(&[0, 1, 1, therms]),
        supply_cost: random.pick(&[0, 1, 45_000]),
        ..plain
    }
}

fn move_some(random: &mut Random, book: &mut Book, therms: u32, most: u32) {
    for _ in 0..random.between(0, most) {
        let posted = book.posted();
        if posted.is_empty() {
            return;
        }
        let unauthorized: Vec<Day> = posted
            .iter()
            .copied()
            .filter(|day| day.curtailed == 1 && day.after_notice > 0)
            .collect();
        let day = match (random.below(5), unauthorized.first()) {
            // The first one ceases to be so, in one way or the other.
            (0, Some(&first)) => Day {
                after_notice: 0,
                ..first
            },
            (1, Some(&first)) => Day {
                curtailed: 0,
                ..first
            },
            // A day before it takes its place.
            (2, Some(&first)) => {
                let before: Vec<Day> = posted
                    .iter()
                    .copied()
                    .filter(|day| (day.month, day.day) <= (first.month, first.day))
                    .collect();
                let day = random.pick(&before);
                curtailed_day(random, day.month, day.day, therms)
            }
            _ => {
                let day = random.pick(&posted);
                curtailed_day(random, day.month, day.day, therms)
            }
        };
        book.call(Record::Correct(day));
    }
}
