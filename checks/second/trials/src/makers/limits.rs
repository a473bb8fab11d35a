//! Numbers at their limits, one beyond, and as great as their bytes allow.

use super::course::{correct_some, post_each};
use super::manner::{opening_of, plain_day, Manner};
use crate::book::{Book, PAYMENT, PER_MILLE, RATE, THERMS};
use crate::random::Random;
use crate::records::{Closing, Day, Opening, Record, Settlement};

const THERMS_EDGES: [u32; 9] = [
    0,
    1,
    65_535,
    65_536,
    THERMS - 1,
    THERMS,
    THERMS,
    THERMS + 1,
    u32::MAX,
];
const RATE_EDGES: [u32; 7] = [0, 1, RATE - 1, RATE, RATE, RATE + 1, u32::MAX];
const LAWFUL_RATES: [u32; 4] = [0, 1, RATE - 1, RATE];
const PER_MILLE_EDGES: [u16; 8] = [
    0,
    1,
    PER_MILLE - 1,
    PER_MILLE,
    PER_MILLE,
    PER_MILLE + 1,
    32_768,
    u16::MAX,
];
const PAYMENT_EDGES: [u64; 9] = [
    0,
    1,
    u32::MAX as u64,
    1 << 32,
    PAYMENT - 1,
    PAYMENT,
    PAYMENT + 1,
    1 << 63,
    u64::MAX,
];
const MONTH_EDGES: [u8; 6] = [0, 3, 11, 11, 12, 255];

pub fn limits(random: &mut Random) -> Vec<u8> {
    let mut book = Book::new();
    for _ in 0..random.below(4) {
        let opening = edge_opening(random);
        book.call(Record::Open(opening));
    }
    if random.chance(97) {
        let opening = opening_of(random, 0, 0);
        book.call(Record::Open(opening));
    }
    probe(random, &mut book);
    if random.chance(40) {
        full_month(random, &mut book);
        probe(random, &mut book);
    }
    book.into_bytes()
}

fn edge_opening(random: &mut Random) -> Opening {
    let mut opening = opening_of(random, 0, 0);
    opening.last = random.pick(&[0, 11]);
    match random.below(5) {
        0 => opening.leap = random.pick(&[0, 1, 2, 255]),
        1 => opening.increase = random.pick(&PER_MILLE_EDGES),
        2 => opening.last = random.pick(&[11, 12, 255]),
        3 => (opening.first, opening.last) = (random.pick(&[11, 12, 255]), 11),
        _ => (opening.first, opening.last) = random.pick(&[(1, 0), (11, 10), (11, 11), (12, 12)]),
    }
    opening
}

/// A few calls, each with a number or two at an edge.
fn probe(random: &mut Random, book: &mut Book) {
    for _ in 0..random.between(5, 25) {
        let record = match random.below(12) {
            0..=5 => Record::Post(edge_day(random, book)),
            6..=8 => Record::Correct(edge_day(random, book)),
            9 => Record::Close(edge_closing(random, book, &RATE_EDGES)),
            10 => Record::Pay(random.pick(&PAYMENT_EDGES)),
            _ => Record::Settle(Settlement {
                final_increase: random.pick(&PER_MILLE_EDGES),
                interest: random.pick(&PER_MILLE_EDGES),
            }),
        };
        book.call(record);
    }
}

fn edge_day(random: &mut Random, book: &Book) -> Day {
    let month = if random.chance(50) {
        random.pick(&MONTH_EDGES)
    } else {
        random.byte_between(0, 11)
    };
    let last = book.days_in(month);
    let date = match random.below(6) {
        0 => 0,
        1 => last + 1,
        2 => last,
        3 => random.pick(&[1, 28, 29, 30, 31, 32, 255]),
        _ => random.byte_between(1, last),
    };
    let mut day = plain_day(month, date, random.pick(&[0, 1, 100, THERMS]));
    for _ in 0..random.below(3) {
        match random.below(8) {
            0 => day.kind = random.pick(&[1, 2, 3, 4, 255]),
            1 => day.curtailed = random.pick(&[1, 2, 255]),
            2 => day.nomination = random.pick(&THERMS_EDGES),
            3 => day.receipts = random.pick(&THERMS_EDGES),
            4 => day.reading = random.pick(&THERMS_EDGES),
            5 => {
                let beside = [day.reading, day.reading.saturating_add(1), u32::MAX];
                day.after_notice = random.pick(&beside);
            }
            6 => day.supply_cost = random.pick(&RATE_EDGES),
            _ => day.variance_rate = random.pick(&RATE_EDGES),
        }
    }
    day
}

fn edge_closing(random: &mut Random, book: &Book, rates: &[u32]) -> Closing {
    Closing {
        month: if random.chance(60) {
            book.closed()
        } else {
            random.pick(&MONTH_EDGES)
        },
        index: random.pick(rates),
        interruptible: random.pick(rates),
        firm: random.pick(rates),
    }
}

/// A month of days at lawful limits, closed at such rates. Only a few days
/// are large, so that often no price passes its own limit.
fn full_month(random: &mut Random, book: &mut Book) {
    let large = random.pick(&[3, 10, 30, 100]);
    let Some(month) = book.earliest_open() else {
        return;
    };
    post_each(book, month, |date| {
        let mut day = plain_day(month, date, random.pick(&[0, 1]));
        if random.chance(large) {
            day = Day {
                kind: random.byte_between(0, 3),
                curtailed: random.byte_between(0, 1),
                nomination: random.pick(&[0, 1, THERMS - 1, THERMS]),
                receipts: random.pick(&[0, 1, THERMS - 1, THERMS]),
                reading: random.pick(&[0, 1, THERMS - 1, THERMS]),
                supply_cost: random.pick(&LAWFUL_RATES),
                variance_rate: random.pick(&LAWFUL_RATES),
                ..day
            };
            day.after_notice = random.pick(&[0, day.reading.min(1), day.reading]);
        }
        day
    });
    let mut closing = edge_closing(random, book, &LAWFUL_RATES);
    closing.month = month;
    book.call(Record::Close(closing));
    closing.index = 30_000;
    closing.interruptible = 1;
    closing.firm = 1;
    book.call(Record::Close(closing));
    let manner = Manner::wild();
    let count = random.between(0, 6);
    correct_some(random, book, &manner, count);
    book.call(Record::Settle(Settlement {
        final_increase: random.pick(&[0, 1, PER_MILLE - 1, PER_MILLE]),
        interest: random.pick(&[0, 1, PER_MILLE - 1, PER_MILLE]),
    }));
    correct_some(random, book, &manner, count);
}
