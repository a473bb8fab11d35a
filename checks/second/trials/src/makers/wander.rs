//! Random calls one after another, most of them the next sensible one.

use super::aimed::aimed;
use super::course::{correct_some, post_month, Order};
use super::manner::{closing, opening, opening_within, payment, settlement, Manner};
use crate::book::Book;
use crate::random::Random;
use crate::records::Record;

pub fn wander(random: &mut Random) -> Vec<u8> {
    let mut book = Book::new();
    let manner = if random.chance(80) {
        Manner::small(random)
    } else {
        Manner::wild()
    };
    let bad = random.pick(&[0, 3, 10, 30]);
    for _ in 0..random.between(10, 60) {
        if random.chance(25) {
            let record = aimed(random, &book, bad);
            book.call(record);
        } else {
            step(random, &mut book, &manner);
        }
    }
    book.into_bytes()
}

/// The next call that makes sense.
pub fn step(random: &mut Random, book: &mut Book, manner: &Manner) {
    let Some(opened) = book.opening() else {
        let opening = if random.chance(70) {
            opening_within(random, 2)
        } else {
            opening(random)
        };
        book.call(Record::Open(opening));
        return;
    };
    match random.below(10) {
        0..=2 => advance(random, book, manner),
        3..=6 => {
            let count = random.between(1, 3);
            correct_some(random, book, manner, count);
        }
        7 => {
            let amount = payment(random);
            book.call(Record::Pay(amount));
        }
        8 if !book.is_settled() => {
            let settlement = settlement(random, opened);
            book.call(Record::Settle(settlement));
        }
        _ => {
            // A day ahead of its time, or one that is posted.
            let month = random.byte_between(0, 11);
            let day = random.byte_between(1, book.days_in(month));
            let day = manner.day(random, month, day);
            book.call(Record::Post(day));
        }
    }
}

/// Completes the earliest open month, or closes it. Late months are rare,
/// as each makes the journal longer.
fn advance(random: &mut Random, book: &mut Book, manner: &Manner) {
    let Some(month) = book.earliest_open() else {
        return;
    };
    if book.is_complete(month) {
        let closing = closing(random, month);
        book.call(Record::Close(closing));
    } else if month < 2 || random.chance(20) {
        post_month(random, book, month, Order::Mixed, manner);
    }
}
