//! Days and months about the tolerances and the bands, and sums whose share
//! ends in just half a millicent.

use super::course::{close, correct_some, post_each, settle};
use super::manner::{around, closing, opening_of, plain_day, settlement, Manner};
use crate::book::{days_of, Book, RATE, THERMS};
use crate::random::Random;
use crate::records::{Day, Opening, Record};

pub fn edges(random: &mut Random) -> Vec<u8> {
    let mut book = Book::new();
    match random.below(16) {
        0..=5 => daily(random, &mut book, 1),
        6..=8 => monthly(random, &mut book),
        9..=11 => halves(random, &mut book),
        12..=14 => about_zero(random, &mut book),
        // April is the first month at the summer's charge.
        _ => daily(random, &mut book, 6),
    }
    book.into_bytes()
}

/// A day whose use lies by its nomination's tolerance, a twentieth of it: at
/// it, one therm within or one beyond, on either side.
fn edge_day(random: &mut Random, month: u8, day: u8) -> Day {
    let nomination = match random.below(20) {
        0..=10 => random.between(0, 40),
        11..=14 => 20 * random.between(0, 100),
        15..=18 => random.between(0, 3_000),
        _ => random.between(THERMS - 40, THERMS),
    };
    let distance = (nomination / 20 + random.pick(&[0, 1, 1, 2])).saturating_sub(1);
    let reading = if random.chance(50) {
        nomination.saturating_sub(distance)
    } else {
        (nomination + distance).min(THERMS)
    };
    let curtailed = u8::from(random.chance(25));
    let after_notice = if curtailed == 1 && random.chance(40) {
        random.between(0, reading)
    } else {
        0
    };
    Day {
        month,
        day,
        kind: random.pick(&[0, 0, 0, 1, 2, 2, 3]),
        curtailed,
        nomination,
        receipts: around(random, reading, 4),
        reading,
        after_notice,
        supply_cost: random.pick(&[0, 1, 50_001]),
        variance_rate: random.pick(&[0, 1, 30_003]),
    }
}

fn daily(random: &mut Random, book: &mut Book, months: u8) {
    let opening = opening_of(random, 0, months - 1);
    book.call(Record::Open(opening));
    for month in 0..months {
        post_each(book, month, |day| edge_day(random, month, day));
        let closing = closing(random, month);
        book.call(Record::Close(closing));
    }
    let settlement = settlement(random, opening);
    for turn in 0..12 {
        if turn == 4 {
            book.call(Record::Settle(settlement));
        }
        let month = random.byte_between(0, months - 1);
        let day = random.byte_between(1, book.days_in(month));
        let day = edge_day(random, month, day);
        book.call(Record::Correct(day));
    }
}

/// Totals at the month's tolerance of 2 percent, one therm within or beyond.
fn monthly(random: &mut Random, book: &mut Book) {
    let opening = opening_of(random, 0, 0);
    book.call(Record::Open(opening));
    let therms = match random.below(4) {
        0 => random.between(0, 3),
        1 => random.between(0, 60),
        2 => 50 * random.between(0, 20),
        _ => random.between(0, 5_000),
    };
    let total = therms * u32::from(days_of(0, false));
    let apart = (total / 50 + random.pick(&[0, 1, 1, 2])).saturating_sub(1);
    let bought = random.chance(50);
    let date = random.byte_between(1, 30);
    let unbalanced = |day: Day, apart: u32| {
        let more = (therms + apart).min(THERMS);
        if bought {
            Day {
                reading: more,
                nomination: more,
                ..day
            }
        } else {
            Day {
                receipts: more,
                ..day
            }
        }
    };
    post_each(book, 0, |day| {
        let plain = plain_day(0, day, therms);
        if day == date {
            unbalanced(plain, apart)
        } else {
            plain
        }
    });
    // An index that no 5 divides leaves fractions, where its share is 120 or
    // 80 percent. Without any rates there are therms and no millicents.
    let index = random.pick(&[0, 1, 2, 3, 4, 7, 30_001, 30_002, 29_998, RATE - 1]);
    let transport = random.pick(&[0, 1, 1_000, 1_003]);
    close(book, 0, index, transport, transport * 2);
    let settlement = settlement(random, opening);
    for turn in 0..8 {
        if turn == 4 {
            book.call(Record::Settle(settlement));
        }
        let beside = (apart + random.between(0, 2)).saturating_sub(1);
        let mut day = unbalanced(plain_day(0, date, therms), beside);
        if random.chance(30) {
            // The other day moves the totals, and not their distance.
            let other = if date == 30 { 1 } else { date + 1 };
            day = plain_day(0, other, therms + random.between(0, 100));
        } else if random.chance(20) {
            std::mem::swap(&mut day.receipts, &mut day.reading);
        }
        book.call(Record::Correct(day));
    }
}

/// With readings of 125 more than a multiple of 250, an increase of 4 more
/// than a multiple of 8 comes to a half: the basic charge is in whole
/// thousands, and the therms' charge ends in 421.
fn halves(random: &mut Random, book: &mut Book) {
    let increase = 4 + 8 * random.short_between(0, 124);
    let lower = 4 + 8 * random.short_between(0, (increase - 4) / 8);
    let opening = Opening {
        leap: 0,
        increase,
        first: 0,
        last: 0,
    };
    book.call(Record::Open(opening));
    let therms = random.between(0, 12);
    let rest = 125 + 250 * random.between(2, 8) - 29 * therms;
    let date = random.byte_between(1, 30);
    post_each(book, 0, |day| {
        plain_day(0, day, if day == date { rest } else { therms })
    });
    let kept = random.chance(50);
    close(
        book,
        0,
        random.between(0, 40_000),
        1_000,
        random.between(0, 2_000),
    );
    if kept {
        settle(book, lower, random.pick(&[500, 4, 100, 1, 1_000]));
    }
    for _ in 0..random.between(2, 8) {
        // In steps of 250 the half stays; a twentieth of a sum with 10 more
        // than a multiple of 20 is a half as well.
        let reading = random.pick(&[rest, rest + 250, rest + 10, rest + 20, rest + 1, 500, 125]);
        book.call(Record::Correct(plain_day(0, date, reading)));
    }
    if !kept {
        settle(book, lower, 500);
    }
    let manner = Manner::small(random);
    correct_some(random, book, &manner, 4);
}

/// Gas sold at such a price that the credit is about all the rest of the
/// month: the franchise rider takes a share of a sum next to 0, or of one
/// below it, which is no share.
fn about_zero(random: &mut Random, book: &mut Book) {
    let opening = Opening {
        leap: random.byte_between(0, 1),
        increase: random.pick(&[0, 0, 0, 1, 20]),
        first: 0,
        last: 0,
    };
    book.call(Record::Open(opening));
    // So many therms that 10 are within the month's tolerance.
    let therms = random.between(17, 60);
    let date = random.byte_between(1, 30);
    post_each(book, 0, |day| {
        let mut posted = plain_day(0, day, therms);
        if day == date {
            posted.receipts += 10;
        }
        posted
    });
    let charged = 15_550_000 + 12_421 * therms * 30;
    let charged = charged + charged / 1_000 * u32::from(opening.increase);
    let both = charged / 10 + random.between(0, 8) - 4;
    let index = random.between(both.saturating_sub(RATE), RATE);
    close(book, 0, index, 0, both - index);
    for turn in 0..8 {
        if turn == 3 {
            settle(book, 0, random.pick(&[0, 500, 1_000]));
        }
        let mut day = plain_day(0, date, therms + random.between(0, 2));
        day.receipts = therms + random.between(8, 12);
        book.call(Record::Correct(day));
    }
}
