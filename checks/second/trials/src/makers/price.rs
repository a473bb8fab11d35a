//! Prices at their limit of 10^13 and past it. With lawful numbers the daily
//! balancing, the monthly balancing and the unauthorized use can pass it, all
//! at the class. The interim and the franchise shares stay far below.

use super::course::{close, correct_some, post_each, settle};
use super::manner::{opening_of, plain_day, Manner};
use crate::book::{Book, PAYMENT, RATE, ROOM, THERMS};
use crate::random::Random;
use crate::records::{Day, Record};

/// The limit of a price, which is also that of a payment.
const LIMIT: u64 = PAYMENT;

pub fn price(random: &mut Random) -> Vec<u8> {
    let mut book = Book::new();
    let months = random.pick(&[0, 0, 1]);
    let mut opening = opening_of(random, 0, months);
    opening.increase = opening.increase.max(1);
    book.call(Record::Open(opening));
    match random.below(10) {
        0 | 1 => daily(random, &mut book, 0),
        2 | 3 => monthly(random, &mut book, true),
        4 | 5 => monthly(random, &mut book, false),
        6 | 7 => unauthorized(random, &mut book, 0),
        8 => {
            // The first unauthorized day may come to lie in the month before.
            let therms = random.between(0, 20);
            post_each(&mut book, 0, |day| plain_day(0, day, therms));
            close(&mut book, 0, 1, 1, 1);
            unauthorized(random, &mut book, 1);
        }
        _ => {
            // Past the limit and without room: the price is tested first.
            let left = random.pick(&[0, 1, 3, 20]);
            for _ in 0..ROOM - left {
                book.call(Record::Pay(1));
            }
            daily(random, &mut book, 0);
        }
    }
    settle(&mut book, random.short_between(0, opening.increase), 20);
    let count = random.between(0, 4);
    correct_some(random, &mut book, &Manner::wild(), count);
    book.into_bytes()
}

/// On a critical day 200,000 therms at 2,000,000: 25 of them are the limit.
fn critical(month: u8, day: u8, therms: u32, rate: u32) -> Day {
    Day {
        kind: 3,
        nomination: 0,
        variance_rate: rate,
        ..plain_day(month, day, therms)
    }
}

fn daily(random: &mut Random, book: &mut Book, month: u8) {
    let mut dates: Vec<u8> = (1..=book.days_in(month)).collect();
    random.shuffle(&mut dates);
    let (full, idle) = dates.split_at(random.pick(&[24, 25, 25, 25, 26]));
    let beyond = random.pick(&[0, 1]);
    for &date in full {
        book.call(Record::Post(critical(month, date, THERMS, RATE)));
    }
    for &date in idle {
        let therms = if date == idle[0] { beyond } else { 0 };
        book.call(Record::Post(critical(month, date, therms, 1)));
    }
    close(book, month, 0, 0, 0);
    for _ in 0..random.between(2, 8) {
        let date = random.pick(&[full[0], full[1], idle[0], idle[1]]);
        let (therms, rate) = random.pick(&[
            (THERMS, RATE),
            (THERMS, RATE - 1),
            (THERMS - 1, RATE),
            (0, 1),
            (1, 1),
            (2, 1),
        ]);
        book.call(Record::Correct(critical(month, date, therms, rate)));
        if random.chance(30) {
            settle(book, 0, 1);
        }
        close(book, month, 0, 0, 0);
    }
}

/// So many therms bought or sold, far out of the tolerance, at rates that
/// come to the limit, just below it or just above.
fn monthly(random: &mut Random, book: &mut Book, bought: bool) {
    let dates = u32::from(book.days_in(0));
    let share = if bought { 120 } else { 80 };
    let least = 2_800_000;
    // At the round numbers the limit itself can be met.
    let any = random.between(least, dates * THERMS);
    let therms = random.pick(&[5_000_000, 4_000_000, any]);
    // Index and transport share what the limit leaves for a therm, and
    // neither is above what a rate may be.
    let whole = LIMIT / u64::from(therms);
    let low = whole.saturating_sub(u64::from(RATE)) * 100 / share;
    let high = (whole * 100 / share).min(u64::from(RATE));
    let (low, high) = (low as u32 + 1, high as u32);
    let index = match random.below(4) {
        0 => low,
        // By fives, so that nothing is rounded.
        1 | 2 => random.between(low, high) / 5 * 5 + 5,
        _ => random.between(low, high),
    };
    let index = index.min(RATE);
    let indexed = (u64::from(therms) * u64::from(index) * share + 50) / 100;
    let left = LIMIT.saturating_sub(indexed);
    let exact = (left / u64::from(therms)).min(u64::from(RATE)) as u32;
    let transport = (exact + random.between(0, 2)).saturating_sub(1).min(RATE);
    let each = therms / dates;
    let rest = therms - each * (dates - 1);
    let part = |day: u8, therms: u32| {
        let mut day = plain_day(0, day, 0);
        if bought {
            (day.nomination, day.reading) = (therms, therms);
        } else {
            day.receipts = therms;
        }
        day
    };
    let rest = rest.min(THERMS);
    post_each(book, 0, |day| part(day, if day == 1 { rest } else { each }));
    let close_at = |book: &mut Book, rate: u32| {
        if bought {
            close(book, 0, index, rate, 0);
        } else {
            close(book, 0, index, 0, rate);
        }
    };
    close_at(book, transport);
    for _ in 0..random.between(2, 8) {
        let therms = (rest + random.between(0, 4)).saturating_sub(2).min(THERMS);
        book.call(Record::Correct(part(1, therms)));
        if random.chance(30) {
            settle(book, 0, 1);
        }
        close_at(
            book,
            (exact + random.between(0, 2)).saturating_sub(1).min(RATE),
        );
    }
}

/// 200,000 unauthorized therms at a supply cost of 1,400,000 come to a
/// twenty-fifth of the limit, and as the year's first to 6 * 10^10 less.
fn unauthorized(random: &mut Random, book: &mut Book, month: u8) {
    const COST: u32 = 1_400_000;
    let used = |day: u8, after_notice: u32, supply_cost: u32| Day {
        curtailed: 1,
        after_notice,
        supply_cost,
        ..plain_day(month, day, THERMS)
    };
    let offset = random.byte_between(1, 4);
    // At this cost the first day comes to as much as the others.
    let first_cost = random.pick(&[COST, COST + 300_000, COST + 300_001]);
    let full = random.pick(&[24, 25, 25]);
    post_each(book, month, |day| {
        if day == offset {
            used(day, THERMS, first_cost)
        } else if day > offset && day < offset + full {
            used(day, THERMS, COST)
        } else {
            plain_day(month, day, 1)
        }
    });
    close(book, month, 0, 0, 0);
    for _ in 0..random.between(2, 10) {
        let day = match random.below(6) {
            // An earlier day is the first unauthorized one, or none is.
            0 => Day {
                curtailed: random.byte_between(0, 1),
                after_notice: random.between(0, 1),
                ..plain_day(month.saturating_sub(1), 1, 1)
            },
            1 => plain_day(month.saturating_sub(1), 1, 1),
            2 => used(offset, random.pick(&[0, THERMS]), first_cost),
            3 => used(offset, THERMS, random.pick(&[COST, COST + 300_000])),
            4 => used(offset + 1, random.pick(&[0, THERMS - 1, THERMS]), COST),
            _ => used(30, random.between(0, 2), random.pick(&[0, 1])),
        };
        book.call(Record::Correct(day));
        if random.chance(20) {
            settle(book, 0, 1);
        }
        if random.chance(40) {
            close(book, month, 0, 0, 0);
        }
    }
}
