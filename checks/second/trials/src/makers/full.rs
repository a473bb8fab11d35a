//! Journals as long as they may be, and longer.

use super::aimed::aimed;
use super::course::{close, post_month, tell, Order};
use super::manner::{closing, corrected, opening, opening_within, payment, Manner};
use super::wander::step;
use super::years::{settled_year, short_course, whole_year};
use crate::book::Book;
use crate::random::Random;
use crate::records::{places, Opening, Record, Settlement};

/// The most bytes that are played.
pub const LONGEST: usize = 65_536;

pub fn full(random: &mut Random) -> Vec<u8> {
    let size = random.pick(&[LONGEST, LONGEST, LONGEST - 1]);
    of_size(random, size)
}

pub fn too_long(random: &mut Random) -> Vec<u8> {
    let size = match random.below(8) {
        0 => LONGEST + 2,
        1 => LONGEST + random.place(5_000) + 1,
        2 => 2 * LONGEST,
        _ => LONGEST + 1,
    };
    of_size(random, size)
}

fn of_size(random: &mut Random, size: usize) -> Vec<u8> {
    let mut book = Book::new();
    match random.below(8) {
        0..=2 => {
            let manner = settled_year(random, &mut book);
            correct_on(random, &mut book, &manner, size);
        }
        3 => {
            // Corrections of open months write no line, so that the account
            // is not full when the months are closed at last.
            let manner = open_year(random, &mut book);
            correct_on(random, &mut book, &manner, size - 400);
            for month in 0..12 {
                let closing = closing(random, month);
                book.call(Record::Close(closing));
            }
            pad(random, &mut book, size);
        }
        4 => {
            let opening = opening(random);
            let course = whole_year(random, opening);
            tell(random, &mut book, &course);
            correct_on(random, &mut book, &course.manner, size);
        }
        5 => {
            let manner = short_course(random, &mut book, 1);
            correct_on(random, &mut book, &manner, size);
        }
        6 => {
            let opening = opening_within(random, 3);
            book.call(Record::Open(opening));
            while book.len() + 60 < size {
                let amount = payment(random);
                book.call(Record::Pay(amount));
            }
            pad(random, &mut book, size);
        }
        _ => {
            let manner = Manner::small(random);
            while book.len() + 1_100 < size {
                if random.chance(50) {
                    step(random, &mut book, &manner);
                } else {
                    let record = aimed(random, &book, 10);
                    book.call(record);
                }
            }
            pad(random, &mut book, size);
        }
    }
    let mut journal = book.into_bytes();
    if random.chance(15) {
        // The journal ends inside a record, and still at its size: a correction
        // begins where a shorter record stood.
        let places = places(&journal);
        if let Some(last) = places.last() {
            journal[last.at] = 3;
        }
    }
    journal
}

/// A year with all days posted, and no month closed.
fn open_year(random: &mut Random, book: &mut Book) -> Manner {
    let manner = Manner::sensible(random);
    let opening = opening(random);
    book.call(Record::Open(opening));
    for month in 0..12 {
        post_month(random, book, month, Order::Mixed, &manner);
    }
    // It is not complete without its days, and out of turn besides.
    close(book, 1, 1, 1, 1);
    manner
}

fn correct_on(random: &mut Random, book: &mut Book, manner: &Manner, size: usize) {
    let posted = book.posted();
    while !posted.is_empty() && book.len() + 90 < size {
        let day = random.pick(&posted);
        let day = book.day(day.month, day.day).unwrap_or(day);
        let new = corrected(random, manner, day);
        book.call(Record::Correct(new));
    }
    pad(random, book, size);
}

/// Goes on to just this size, by payments, settlements of 5 bytes and openings
/// of 6. Any number of bytes from 20 on is so many fives and sixes.
fn pad(random: &mut Random, book: &mut Book, size: usize) {
    while book.len() + 29 < size {
        let amount = payment(random);
        book.call(Record::Pay(amount));
    }
    let left = size - book.len();
    let sixes = left % 5;
    for _ in 0..sixes {
        book.call(Record::Open(Opening {
            leap: 0,
            increase: 1,
            first: 0,
            last: 0,
        }));
    }
    while book.len() < size {
        book.call(Record::Settle(Settlement {
            final_increase: random.short_between(0, 1_000),
            interest: random.short_between(0, 1_000),
        }));
    }
}

#[cfg(test)]
mod tests {
    use super::*;

    #[test]
    fn the_three_sizes_are_met_exactly() {
        for number in 0..40 {
            for size in [LONGEST - 1, LONGEST, LONGEST + 1] {
                let mut random = Random::new(11, number);
                assert_eq!(of_size(&mut random, size).len(), size);
            }
        }
    }

    #[test]
    fn the_longest_are_full_and_those_too_long_are_longer() {
        let sizes: Vec<usize> = (0..40)
            .map(|number| full(&mut Random::new(12, number)).len())
            .collect();
        assert!(sizes.contains(&LONGEST));
        assert!(sizes.contains(&(LONGEST - 1)));
        assert!(sizes.iter().all(|&size| size <= LONGEST));
        let sizes: Vec<usize> = (0..40)
            .map(|number| too_long(&mut Random::new(12, number)).len())
            .collect();
        assert!(sizes.contains(&(LONGEST + 1)));
        assert!(sizes.iter().all(|&size| size > LONGEST));
    }
}
