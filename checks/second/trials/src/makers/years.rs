//! Whole years and short ones, told as they should be.

use super::course::{correct_some, tell, Course, Order};
use super::manner::{opening, opening_within, settlement, Manner};
use crate::book::Book;
use crate::random::Random;
use crate::records::{Opening, Record};

pub fn year(random: &mut Random) -> Vec<u8> {
    let opening = opening(random);
    let mut course = whole_year(random, opening);
    course.afterwards = random.pick(&[0, 5, 20, 60]);
    let mut book = Book::new();
    tell(random, &mut book, &course);
    // A settlement before its time or after it is refused; where none was
    // made so far it comes now.
    if random.chance(60) {
        let late = settlement(random, opening);
        book.call(Record::Settle(late));
        correct_some(random, &mut book, &course.manner, 5);
    }
    book.into_bytes()
}

/// All twelve months, settled at some time from the last interim month on.
pub fn whole_year(random: &mut Random, opening: Opening) -> Course {
    let manner = if random.chance(70) {
        Manner::sensible(random)
    } else {
        Manner::small(random)
    };
    let settled_after = match random.below(5) {
        0 | 1 => Some(opening.last),
        2 => Some(random.byte_between(opening.last, 11)),
        3 => Some(11),
        _ => None,
    };
    Course {
        opening,
        months: 12,
        manner,
        order: random.pick(&[
            Order::Forward,
            Order::Forward,
            Order::Backward,
            Order::Mixed,
        ]),
        ahead: random.chance(30),
        corrections: random.pick(&[0, 1, 3]),
        payments: random.pick(&[0, 1, 2]),
        settled_after,
        settlement: settlement(random, opening),
        afterwards: 0,
        missteps: random.pick(&[0, 0, 10]),
    }
}

/// A closed, settled year, as the start of something longer.
pub fn settled_year(random: &mut Random, book: &mut Book) -> Manner {
    let opening = opening(random);
    let mut course = whole_year(random, opening);
    course.settled_after = Some(random.pick(&[opening.last, 11]));
    course.corrections = 0;
    course.missteps = 0;
    tell(random, book, &course);
    course.manner
}

pub fn corrections(random: &mut Random) -> Vec<u8> {
    let mut book = Book::new();
    let manner = settled_year(random, &mut book);
    let count = random.between(60, 400);
    correct_some(random, &mut book, &manner, count);
    book.into_bytes()
}

pub fn small(random: &mut Random) -> Vec<u8> {
    let months = random.pick(&[1, 1, 1, 1, 1, 1, 2, 2, 2, 3]);
    let mut book = Book::new();
    short_course(random, &mut book, months);
    book.into_bytes()
}

/// The first so many months in small numbers, mostly settled.
pub fn short_course(random: &mut Random, book: &mut Book, months: u8) -> Manner {
    let opening = if random.chance(90) {
        opening_within(random, months)
    } else {
        opening(random)
    };
    let course = Course {
        opening,
        months,
        manner: Manner::small(random),
        order: random.pick(&[Order::Forward, Order::Backward, Order::Mixed]),
        ahead: random.chance(20),
        corrections: random.pick(&[0, 2, 6]),
        payments: random.pick(&[0, 0, 2]),
        settled_after: random
            .chance(85)
            .then(|| random.byte_between(opening.last.min(months - 1), months - 1)),
        settlement: settlement(random, opening),
        afterwards: random.pick(&[0, 4, 10, 20]),
        missteps: random.pick(&[0, 0, 20]),
    };
    tell(random, book, &course);
    course.manner
}
