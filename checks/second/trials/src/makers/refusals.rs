//! Calls that fail several tests at once, in every standing.

use super::aimed::aimed;
use super::course::{close, post_each, settle};
use super::manner::{closing, opening, opening_of, opening_within, plain_day, Manner};
use super::years::settled_year;
use crate::book::Book;
use crate::random::Random;
use crate::records::Record;

pub fn refusals(random: &mut Random) -> Vec<u8> {
    let mut book = Book::new();
    if random.chance(40) {
        // Before the opening all that is refused is refused with 20, but the
        // opening, which has its own order.
        let bad = random.pick(&[20, 50, 80]);
        aim(random, &mut book, bad, 6);
    }
    stand(random, &mut book);
    let bad = random.pick(&[5, 20, 40, 60]);
    let count = random.between(8, 40);
    aim(random, &mut book, bad, count);
    // The year goes on as if nothing had been refused.
    if random.chance(50) {
        go_on(random, &mut book);
    }
    book.into_bytes()
}

fn aim(random: &mut Random, book: &mut Book, bad: u32, count: u32) {
    for _ in 0..count {
        let record = aimed(random, book, bad);
        book.call(record);
    }
}

/// Brings the account into one of the states that tests tell apart.
fn stand(random: &mut Random, book: &mut Book) {
    let scene = random.below(24);
    if scene == 0 {
        settled_year(random, book);
        return;
    }
    let opening = match scene {
        1..=4 => opening(random),
        5..=8 => opening_within(random, 2),
        _ => opening_of(random, 0, 0),
    };
    if scene == 1 {
        return;
    }
    book.call(Record::Open(opening));
    let manner = Manner::small(random);
    match scene {
        2..=4 => scatter(random, book, &manner),
        5..=8 => {
            post_each(book, 0, |day| manner.day(random, 0, day));
            scatter(random, book, &manner);
        }
        _ => {
            let therms = random.between(1, 30);
            post_each(book, 0, |day| plain_day(0, day, therms));
        }
    }
    if scene > 10 {
        let closing = closing(random, 0);
        book.call(Record::Close(closing));
        scatter(random, book, &manner);
    }
    if scene > 16 {
        settle(
            book,
            random.short_between(0, 300),
            random.short_between(0, 100),
        );
    }
}

/// Some days here and there in the year.
fn scatter(random: &mut Random, book: &mut Book, manner: &Manner) {
    for _ in 0..random.between(0, 8) {
        let month = random.pick(&[0, 1, 1, 3, 11]);
        let day = random.byte_between(1, book.days_in(month));
        let day = manner.day(random, month, day);
        book.call(Record::Post(day));
    }
}

fn go_on(random: &mut Random, book: &mut Book) {
    if book.opening().is_none() {
        let opening = opening_of(random, 0, 0);
        book.call(Record::Open(opening));
    }
    if let Some(month) = book.earliest_open().filter(|&month| month < 2) {
        let manner = Manner::small(random);
        post_each(book, month, |day| manner.day(random, month, day));
        close(book, month, random.between(1, 40_000), 1_000, 900);
    }
    settle(book, random.short_between(0, 300), 500);
    aim(random, book, 10, 4);
}
