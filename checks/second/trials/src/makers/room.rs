//! An account with hardly any room for lines, or none.

use super::aimed::aimed;
use super::course::{close, post_each, settle};
use super::manner::{opening_of, payment, plain_day};
use crate::book::{Book, PAYMENT, PER_MILLE, ROOM};
use crate::random::Random;
use crate::records::{Day, Record};

pub fn room(random: &mut Random) -> Vec<u8> {
    let mut book = Book::new();
    let last = random.pick(&[0, 0, 0, 1]);
    let mut opening = opening_of(random, 0, last);
    opening.increase = opening.increase.max(2);
    book.call(Record::Open(opening));
    let months = random.pick(&[1, 1, 2]);
    let therms = random.between(1, 90);
    for month in 0..months {
        post_each(&mut book, month, |day| plain_day(month, day, therms));
    }
    match random.below(6) {
        0 | 1 => {
            // A plain month's lines: basic, delivery, interim, franchise.
            close(&mut book, 0, 30_000, 1_000, 1_000);
            fill(random, &mut book, 4);
            if last == 0 && random.chance(70) {
                settle_again(random, &mut book, opening.increase);
            }
        }
        2 | 3 => fill(random, &mut book, 0),
        4 => {
            // Closed and settled with refund and interest.
            if last == 0 {
                close(&mut book, 0, 30_000, 1_000, 1_000);
                settle(&mut book, opening.increase / 2, 500);
                fill(random, &mut book, 6);
            } else {
                fill(random, &mut book, 0);
            }
        }
        _ => {
            close(&mut book, 0, 30_000, 1_000, 1_000);
            settle(&mut book, opening.increase / 2, 500);
            flip(random, &mut book, therms);
        }
    }
    let least = opening.increase - 1;
    for _ in 0..random.between(6, 24) {
        last_calls(random, &mut book, therms, least);
    }
    book.into_bytes()
}

/// Payments until there is room for a few lines, for one or for none.
fn fill(random: &mut Random, book: &mut Book, lines: usize) {
    let left = random.pick(&[0, 0, 1, 1, 2, 2, 3, 4, 5, 6, 7, 8]);
    for _ in 0..ROOM - lines - left {
        let amount = payment(random);
        book.call(Record::Pay(amount));
    }
}

/// Settlements with two lines due, one or none, the first of which may be
/// refused. The year goes on as if it had not been tried.
fn settle_again(random: &mut Random, book: &mut Book, increase: u16) {
    for _ in 0..random.between(1, 4) {
        settle(book, random.short_between(0, increase - 1), 500);
        match random.below(6) {
            0 => settle(book, increase - 1, 0),
            1 => settle(book, increase, 1_000),
            2 => settle(book, PER_MILLE, 0),
            3 => settle(book, PER_MILLE + 1, 0),
            4 => book.call(Record::Post(plain_day(1, 1, 1))),
            _ => book.call(Record::Pay(1)),
        }
    }
}

/// A day that goes wrong in all ways at once, to and fro: each correction
/// writes lines under eight items.
fn flip(random: &mut Random, book: &mut Book, therms: u32) {
    let date = random.byte_between(1, 30);
    for turn in 0..random.between(110, 190) {
        let day = if turn % 2 == 0 {
            lively_day(random, date, therms)
        } else {
            plain_day(0, date, therms)
        };
        book.call(Record::Correct(day));
    }
}

fn lively_day(random: &mut Random, date: u8, therms: u32) -> Day {
    let reading = therms * 2 + random.between(1, 9);
    Day {
        curtailed: 1,
        reading,
        after_notice: random.between(1, reading),
        supply_cost: random.between(0, 9_000),
        ..plain_day(0, date, therms)
    }
}

/// Calls that need no line, one, two or more.
fn last_calls(random: &mut Random, book: &mut Book, therms: u32, least: u16) {
    let date = random.byte_between(1, 30);
    let plain = plain_day(0, date, therms);
    let known = book.day(0, date).unwrap_or(plain);
    match random.below(16) {
        0 => settle(book, least, 0),
        1 => settle(book, least / 2, random.pick(&[0, 1, 20, 1_000])),
        2 => settle(book, 1_000, 1_000),
        3 => book.call(Record::Pay(random.pick(&[0, 1, PAYMENT, PAYMENT + 1]))),
        4 => {
            let amount = payment(random);
            book.call(Record::Pay(amount));
        }
        5 => {
            // The same again, or what no price depends on.
            book.call(Record::Correct(Day {
                variance_rate: random.between(0, 9),
                ..known
            }));
        }
        6 => {
            // The distance of nomination and reading: daily and franchise.
            book.call(Record::Correct(Day {
                nomination: therms + random.between(0, 40),
                ..known
            }));
        }
        7 => {
            // Monthly balancing and franchise.
            book.call(Record::Correct(Day {
                receipts: therms + random.between(0, 3),
                ..known
            }));
        }
        8 => book.call(Record::Correct(plain)),
        9 => {
            let day = lively_day(random, date, therms);
            book.call(Record::Correct(day));
        }
        10 => {
            // A day of an open month: no line is due.
            book.call(Record::Correct(plain_day(1, date, therms + 5)));
        }
        11 | 12 => {
            let month = book.closed().min(11);
            close(book, month, 30_000, 1_000, 1_000);
        }
        13 => {
            let month = book.closed().min(11);
            close(book, month, 0, 0, 0);
        }
        14 => book.call(Record::Post(plain_day(2, date, therms))),
        _ => {
            let record = aimed(random, book, 20);
            book.call(record);
        }
    }
}
