//! A call that fails some of its tests, and others by the state it meets, so
//! that the order of the tests counts.

use super::manner::{closing, increase, payment, Manner};
use crate::book::{Book, PAYMENT, PER_MILLE, RATE, THERMS};
use crate::random::Random;
use crate::records::{Closing, Day, Opening, Record, Settlement};

/// Each test of the input fails in so many percent of the calls, by itself.
pub fn aimed(random: &mut Random, book: &Book, bad: u32) -> Record {
    let opened = book.opening().is_some();
    if !opened && random.chance(20) {
        return Record::Open(opening(random, bad));
    }
    match random.below(20) {
        0..=2 => Record::Open(opening(random, bad)),
        3..=7 => Record::Post(day(random, book, bad)),
        8..=12 => Record::Correct(day(random, book, bad)),
        13..=15 => Record::Close(bad_closing(random, book, bad)),
        16 | 17 => Record::Pay(bad_payment(random, bad)),
        _ => Record::Settle(settlement(random, bad)),
    }
}

fn opening(random: &mut Random, bad: u32) -> Opening {
    let (first, last) = if random.chance(bad) {
        match random.below(4) {
            0 => (no_month(random), random.byte_between(0, 11)),
            1 => (random.byte_between(0, 11), no_month(random)),
            2 => (no_month(random), no_month(random)),
            _ => {
                let last = random.byte_between(0, 10);
                (random.byte_between(last + 1, 11), last)
            }
        }
    } else {
        let last = random.pick(&[0, 0, 1, 2, 11]);
        (random.byte_between(0, last), last)
    };
    Opening {
        leap: if random.chance(bad) {
            no_mark(random)
        } else {
            random.byte_between(0, 1)
        },
        increase: per_mille(random, bad),
        first,
        last,
    }
}

fn settlement(random: &mut Random, bad: u32) -> Settlement {
    Settlement {
        final_increase: per_mille(random, bad / 2),
        interest: per_mille(random, bad / 2),
    }
}

fn per_mille(random: &mut Random, bad: u32) -> u16 {
    if random.chance(bad) {
        random.pick(&[PER_MILLE + 1, PER_MILLE + 2, 10_000, 32_768, u16::MAX])
    } else {
        increase(random)
    }
}

fn bad_payment(random: &mut Random, bad: u32) -> u64 {
    if random.chance(bad) {
        random.pick(&[0, PAYMENT + 1, 1 << 63, u64::MAX, PAYMENT + 2])
    } else {
        payment(random)
    }
}

fn bad_closing(random: &mut Random, book: &Book, bad: u32) -> Closing {
    let month = month(random, book, bad);
    let mut closing = closing(random, month);
    if random.chance(bad) {
        let rate = random.pick(&[RATE + 1, RATE + 2, u32::MAX, 1 << 31]);
        match random.below(4) {
            0 => closing.index = rate,
            1 => closing.interruptible = rate,
            2 => closing.firm = rate,
            _ => (closing.index, closing.firm) = (rate, rate),
        }
    }
    closing
}

fn month(random: &mut Random, book: &Book, bad: u32) -> u8 {
    if random.chance(bad) {
        return no_month(random);
    }
    match random.below(6) {
        0 | 1 => book.closed().min(11),
        2 => book.closed().saturating_sub(1),
        3 => 3,
        4 => (book.closed() + 1).min(11),
        _ => random.byte_between(0, 11),
    }
}

fn no_month(random: &mut Random) -> u8 {
    match random.below(3) {
        0 => 12,
        1 => random.byte_between(13, 255),
        _ => random.pick(&[12, 13, 128, 255]),
    }
}

fn no_mark(random: &mut Random) -> u8 {
    random.pick(&[2, 2, 3, 128, 255])
}

fn day(random: &mut Random, book: &Book, bad: u32) -> Day {
    let month = month(random, book, bad);
    let last = book.days_in(month);
    let date = if random.chance(bad) {
        random.pick(&[0, last + 1, 32, 255])
    } else if random.chance(30) {
        // The earliest day is posted more often than the latest.
        random.pick(&[1, last])
    } else {
        random.byte_between(1, last)
    };
    let manner = if random.chance(90) {
        Manner::small(random)
    } else {
        Manner::wild()
    };
    let mut day = manner.day(random, month, date);
    if random.chance(bad) {
        day.kind = random.pick(&[4, 5, 128, 255]);
    }
    if random.chance(bad) {
        day.curtailed = no_mark(random);
    }
    if random.chance(bad) {
        spoil(random, &mut day);
    }
    day
}

/// Puts one number of the day past its limit, or two.
fn spoil(random: &mut Random, day: &mut Day) {
    let therms = random.pick(&[THERMS + 1, THERMS + 2, 1 << 31, u32::MAX]);
    let rate = random.pick(&[RATE + 1, RATE + 2, 1 << 31, u32::MAX]);
    match random.below(8) {
        0 => day.nomination = therms,
        1 => day.receipts = therms,
        2 => day.reading = therms,
        3 => day.after_notice = day.reading + 1,
        4 => day.after_notice = therms,
        5 => day.supply_cost = rate,
        6 => day.variance_rate = rate,
        _ => (day.reading, day.after_notice) = (therms, therms),
    }
}
