//! Lawful numbers, drawn at random in one manner or another.

use crate::book::{PAYMENT, PER_MILLE, RATE, THERMS};
use crate::random::Random;
use crate::records::{Closing, Day, Opening, Settlement};

/// How the numbers of days are drawn.
#[derive(Clone, Copy)]
pub struct Manner {
    /// The nomination is between these.
    pub low: u32,
    pub high: u32,
    /// Receipts and reading are at most so many percent from it.
    pub apart: u32,
    /// Percent of the days that are not of the normal kind.
    pub odd: u32,
    /// Percent of the days that are curtailed.
    pub curtailed: u32,
    /// Percent of the curtailed days that have therms after the notice.
    pub noticed: u32,
    /// Supply cost and variance rate are at most this.
    pub costs: u32,
}

impl Manner {
    /// A site as there are many.
    pub fn sensible(random: &mut Random) -> Manner {
        let high = random.pick(&[60, 150, 400, 3_000, 20_000]);
        Manner {
            low: high / random.between(2, 8),
            high,
            apart: random.pick(&[3, 6, 12, 30]),
            odd: random.pick(&[0, 10, 30]),
            curtailed: random.pick(&[0, 3, 10]),
            noticed: 60,
            costs: 90_000,
        }
    }

    /// A few therms a day, so that each rounding shows.
    pub fn small(random: &mut Random) -> Manner {
        Manner {
            low: random.pick(&[0, 0, 1, 10]),
            high: random.pick(&[10, 25, 60, 200]),
            apart: random.pick(&[0, 6, 20, 60]),
            odd: random.pick(&[0, 20, 75]),
            curtailed: random.pick(&[0, 10, 40]),
            noticed: random.pick(&[20, 70]),
            costs: random.pick(&[0, 9, 70_000, RATE]),
        }
    }

    /// Whatever is lawful.
    pub fn wild() -> Manner {
        Manner {
            low: 0,
            high: THERMS,
            apart: 100,
            odd: 75,
            curtailed: 50,
            noticed: 60,
            costs: RATE,
        }
    }

    pub fn day(&self, random: &mut Random, month: u8, day: u8) -> Day {
        let nomination = random.between(self.low, self.high);
        let receipts = around(random, nomination, self.apart);
        let reading = around(random, nomination, self.apart);
        let curtailed = u8::from(random.chance(self.curtailed));
        // An uncurtailed day's therms after a notice are lawful, and none of
        // them is unauthorized.
        let noticed = if curtailed == 1 { self.noticed } else { 4 };
        let after_notice = if random.chance(noticed) {
            random.between(0, reading)
        } else {
            0
        };
        Day {
            month,
            day,
            kind: self.kind(random),
            curtailed,
            nomination,
            receipts,
            reading,
            after_notice,
            supply_cost: random.between(0, self.costs),
            variance_rate: random.between(0, self.costs),
        }
    }

    fn kind(&self, random: &mut Random) -> u8 {
        if random.chance(self.odd) {
            random.byte_between(1, 3)
        } else {
            0
        }
    }
}

/// A day on which nominated, received and read are the same, and nothing
/// else happened.
pub fn plain_day(month: u8, day: u8, therms: u32) -> Day {
    Day {
        month,
        day,
        nomination: therms,
        receipts: therms,
        reading: therms,
        ..Day::default()
    }
}

/// The number itself at times, else one at most so many percent from it.
pub fn around(random: &mut Random, number: u32, percent: u32) -> u32 {
    if percent == 0 || random.chance(25) {
        return number;
    }
    let spread = (number / 100 * percent + number % 100 * percent / 100).max(2);
    let low = number.saturating_sub(spread);
    let high = number.saturating_add(spread).min(THERMS);
    random.between(low, high)
}

/// A day much like another of the same date, for a correction of it.
pub fn corrected(random: &mut Random, manner: &Manner, day: Day) -> Day {
    let mut new = day;
    match random.below(12) {
        0 | 1 => new = manner.day(random, day.month, day.day),
        2 => new.reading = beside(random, day.reading),
        3 => new.receipts = beside(random, day.receipts),
        4 => new.nomination = beside(random, day.nomination),
        5 => {
            // Receipts and reading move alike: the therms out of balance
            // stay, and only their share in the month's total changes.
            let more = random.between(1, 60);
            new.receipts = (day.receipts + more).min(THERMS);
            new.reading = (day.reading + more).min(THERMS);
        }
        6 => std::mem::swap(&mut new.receipts, &mut new.reading),
        7 => new.kind = random.byte_between(0, 3),
        8 => new.curtailed = 1 - day.curtailed,
        9 => {
            new.curtailed = 1;
            new.after_notice = random.between(0, day.reading);
        }
        10 => new.after_notice = 0,
        _ => new.supply_cost = random.between(0, manner.costs),
    }
    new.after_notice = new.after_notice.min(new.reading);
    new
}

fn beside(random: &mut Random, number: u32) -> u32 {
    let by = random.pick(&[1, 1, 2, 3, 10, 50]);
    if random.chance(50) {
        number.saturating_sub(by)
    } else {
        (number + by).min(THERMS)
    }
}

pub fn increase(random: &mut Random) -> u16 {
    match random.below(8) {
        0 => 0,
        1 => 1,
        2 => PER_MILLE,
        3 => 500,
        4 => random.short_between(1, 50),
        5 | 6 => random.short_between(50, 300),
        _ => random.short_between(0, PER_MILLE),
    }
}

pub fn opening(random: &mut Random) -> Opening {
    let (first, last) = match random.below(6) {
        0 => (0, 11),
        1 => {
            let month = random.byte_between(0, 11);
            (month, month)
        }
        2 => (random.byte_between(0, 11), 11),
        3 => (0, random.byte_between(0, 11)),
        _ => {
            let last = random.byte_between(0, 11);
            (random.byte_between(0, last), last)
        }
    };
    opening_of(random, first, last)
}

/// An opening whose interim months are among the first so many, so that they
/// can all be closed.
pub fn opening_within(random: &mut Random, months: u8) -> Opening {
    let last = random.byte_between(0, months - 1);
    let first = random.byte_between(0, last);
    opening_of(random, first, last)
}

pub fn opening_of(random: &mut Random, first: u8, last: u8) -> Opening {
    Opening {
        leap: random.byte_between(0, 1),
        increase: increase(random),
        first,
        last,
    }
}

/// A settlement whose increase is lower than the opening's, equal or higher.
pub fn settlement(random: &mut Random, opening: Opening) -> Settlement {
    let final_increase = match random.below(8) {
        0..=3 => random.short_between(0, opening.increase),
        4 => opening.increase,
        5 => random.short_between(opening.increase, PER_MILLE),
        6 => opening.increase.saturating_sub(1),
        _ => increase(random),
    };
    let interest = match random.below(6) {
        0 => 0,
        1 => 1,
        2 => 20,
        3 => 500,
        4 => PER_MILLE,
        _ => random.short_between(0, PER_MILLE),
    };
    Settlement {
        final_increase,
        interest,
    }
}

pub fn closing(random: &mut Random, month: u8) -> Closing {
    let rate = |random: &mut Random, usual: u32| match random.below(12) {
        0 => 0,
        1 => random.between(0, 9),
        2 => random.between(0, RATE),
        _ => random.between(usual / 2, usual * 2),
    };
    Closing {
        month,
        index: rate(random, 30_000),
        interruptible: rate(random, 1_000),
        firm: rate(random, 1_200),
    }
}

pub fn payment(random: &mut Random) -> u64 {
    match random.below(10) {
        0 => 1,
        1 => PAYMENT,
        2 => 1 + random.draw() % PAYMENT,
        _ => 1 + random.draw() % 300_000_000,
    }
}
