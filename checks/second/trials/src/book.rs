//! A journal in the making, with a light model of the account that it would
//! make: enough to aim at a state, with no prices and no lines.

use crate::records::{Day, Opening, Record};
use std::collections::BTreeSet;

pub const THERMS: u32 = 200_000;
pub const RATE: u32 = 2_000_000;
pub const PER_MILLE: u16 = 1_000;
pub const PAYMENT: u64 = 10_000_000_000_000;
pub const ROOM: usize = 1_024;

/// How many days a month has, November being 0.
pub fn days_of(month: u8, leap: bool) -> u8 {
    match month {
        0 | 5 | 7 | 10 => 30,
        3 if leap => 29,
        3 => 28,
        _ => 31,
    }
}

#[derive(Default)]
pub struct Book {
    bytes: Vec<u8>,
    opening: Option<Opening>,
    days: [[Option<Day>; 31]; 12],
    closed: u8,
    settled: bool,
}

impl Book {
    pub fn new() -> Self {
        Book::default()
    }

    pub fn len(&self) -> usize {
        self.bytes.len()
    }

    pub fn is_empty(&self) -> bool {
        self.bytes.is_empty()
    }

    pub fn into_bytes(self) -> Vec<u8> {
        self.bytes
    }

    /// Writes the record, and moves the model on if the account would accept
    /// it. Whether a price is past its limit or the lines are full is not
    /// looked at: then the model knows more than the account.
    pub fn call(&mut self, record: Record) {
        record.write(&mut self.bytes);
        if !self.failing(record).is_empty() {
            return;
        }
        match record {
            Record::Open(opening) => self.opening = Some(opening),
            Record::Post(day) | Record::Correct(day) => {
                self.days[usize::from(day.month)][usize::from(day.day) - 1] = Some(day);
            }
            Record::Close(_) => self.closed += 1,
            Record::Pay(_) => {}
            Record::Settle(_) => self.settled = true,
        }
    }

    /// Which tests of the account the record fails, each by itself, but those
    /// of prices and of room. The account answers the first in the call's
    /// order. Of a day that there is not none is posted.
    pub fn failing(&self, record: Record) -> BTreeSet<u8> {
        let mut failing = BTreeSet::new();
        let mut test = |number: u8, fails: bool| {
            if fails {
                failing.insert(number);
            }
        };
        let opened = self.opening.is_some();
        match record {
            Record::Open(opening) => {
                test(21, opened);
                test(3, opening.first > opening.last || opening.last > 11);
                test(6, opening.leap > 1);
                test(8, opening.increase > PER_MILLE);
            }
            Record::Post(day) | Record::Correct(day) => {
                test(20, !opened);
                test(3, day.month > 11);
                test(4, day.day == 0 || day.day > self.days_in(day.month));
                test(5, day.kind > 3);
                test(6, day.curtailed > 1);
                let therms = day.nomination.max(day.receipts).max(day.reading);
                let rate = day.supply_cost.max(day.variance_rate);
                test(
                    7,
                    therms > THERMS || day.after_notice > day.reading || rate > RATE,
                );
                let posted = self.day(day.month, day.day).is_some();
                if let Record::Post(_) = record {
                    test(22, posted);
                } else {
                    test(23, !posted);
                }
            }
            Record::Close(closing) => {
                test(20, !opened);
                test(3, closing.month > 11);
                let rate = closing.index.max(closing.interruptible).max(closing.firm);
                test(7, rate > RATE);
                test(24, self.earliest_open() != Some(closing.month));
                test(25, !self.is_complete(closing.month));
            }
            Record::Pay(amount) => {
                test(20, !opened);
                test(9, amount == 0 || amount > PAYMENT);
            }
            Record::Settle(settlement) => {
                test(20, !opened);
                test(
                    8,
                    settlement.final_increase.max(settlement.interest) > PER_MILLE,
                );
                test(26, self.settled);
                test(
                    27,
                    self.opening
                        .is_none_or(|opening| self.closed <= opening.last),
                );
            }
        }
        failing
    }

    pub fn opening(&self) -> Option<Opening> {
        self.opening
    }

    pub fn is_settled(&self) -> bool {
        self.settled
    }

    pub fn closed(&self) -> u8 {
        self.closed
    }

    /// The month whose closing comes next; none if all are closed, and none
    /// before the opening.
    pub fn earliest_open(&self) -> Option<u8> {
        (self.opening.is_some() && self.closed < 12).then_some(self.closed)
    }

    /// As the account counts them: by the opening's leap mark, and as in a
    /// common year before that. A month that there is not counts 31.
    pub fn days_in(&self, month: u8) -> u8 {
        let leap = self.opening.is_some_and(|opening| opening.leap == 1);
        days_of(month, leap)
    }

    pub fn day(&self, month: u8, day: u8) -> Option<Day> {
        let month = self.days.get(usize::from(month))?;
        *month.get(usize::from(day).checked_sub(1)?)?
    }

    pub fn unposted(&self, month: u8) -> Vec<u8> {
        (1..=self.days_in(month))
            .filter(|&day| self.day(month, day).is_none())
            .collect()
    }

    pub fn posted(&self) -> Vec<Day> {
        self.days.iter().flatten().copied().flatten().collect()
    }

    /// The receipts and readings of the month's posted days.
    pub fn totals(&self, month: u8) -> (u32, u32) {
        let days = self.days.get(usize::from(month)).into_iter().flatten();
        days.flatten().fold((0, 0), |(receipts, readings), day| {
            (receipts + day.receipts, readings + day.reading)
        })
    }

    pub fn is_complete(&self, month: u8) -> bool {
        month <= 11 && self.unposted(month).is_empty()
    }
}
