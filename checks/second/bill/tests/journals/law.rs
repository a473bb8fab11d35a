//! The law of all runs, and that nothing panics, by journals of calls that are drawn at random.

use std::collections::BTreeMap;

use crate::common::{balanced, Day, Journal, DAYS};
use bill::account::{Account, Heading};
use bill::cases::account_schedule;
use bill::journal::{Call, Reader};
use bill::refusal::Refusal;
use bill::schedule::{Item, Schedule};

/// A plain generator of numbers that look random.
struct Draws(u64);

impl Draws {
    /// A number below a bound.
    fn below(&mut self, bound: u32) -> u32 {
        self.0 = self
            .0
            .wrapping_mul(6_364_136_223_846_793_005)
            .wrapping_add(1_442_695_040_888_963_407);
        ((self.0 >> 33) % u64::from(bound)) as u32
    }

    fn day(&mut self, month: u8, day: u8) -> Day {
        let reading = self.below(1_200);
        let curtailed = self.below(40) / 39;
        Day {
            month,
            day,
            kind: self.below(4) as u8,
            curtailed: curtailed as u8,
            nomination: self.below(1_200),
            receipts: self.below(1_200),
            reading,
            after_notice: self.below(reading + 1),
            supply_cost: self.below(2_000_001),
            variance_rate: self.below(2_000_001),
        }
    }

    /// A call of some sort on a year, often lawful.
    fn call(&mut self, journal: Journal) -> Journal {
        let month = self.below(13) as u8;
        let day = self.below(32) as u8;
        match self.below(40) {
            0 => journal.pay(self.below(1_000).into()),
            1 => journal.settle(self.below(1_002) as u16, self.below(1_002) as u16),
            2 => journal.open(0, 0, 0, 0),
            3..=8 => journal.close(month, self.below(2_000_001), self.below(9_999), 1_000),
            9 => journal.post(self.day(month, day)),
            _ => {
                let told = self.day(month, day);
                journal.correct(told)
            }
        }
    }

    /// Some months of a year, posted and mostly closed, among calls of any sort.
    fn journal(&mut self) -> Journal {
        let first = self.below(3) as u8;
        let last = first + self.below(3) as u8;
        let mut journal = Journal::default().open(0, self.below(1_001) as u16, first, last);
        for month in 0..6 {
            for day in 1..=DAYS[usize::from(month)] {
                journal = journal.post(self.day(month, day));
                if self.below(20) == 0 {
                    journal = self.call(journal);
                }
            }
            journal = journal.close(month, self.below(60_001), 1_000, self.below(3_000));
        }
        (0..60).fold(journal, |journal, _| self.call(journal))
    }
}

/// Each closed month's lines add up to its prices, the therms of all lines with the open ones to
/// those of all days, and once settled the interim months' lines and the refund to the lesser of
/// the interim and the final price.
fn check_law(account: &Account, schedule: &Schedule) {
    let year = account.year();
    let sums = account.sums();
    let sum = |heading| sums.get(&heading).copied().unwrap_or_default();
    let increase = year.opening.map_or(0, |opening| opening.increase);
    let priced = |increase| -> BTreeMap<u8, Vec<(Item, i128)>> {
        year.facts(schedule, year.closed(), increase)
            .iter()
            .map(|facts| (facts.month, schedule.prices(facts).all().unwrap()))
            .collect()
    };
    let at_opening = priced(increase);
    for (&month, items) in &at_opening {
        for &(item, price) in items {
            assert_eq!(sum(Heading::Month(month, item)).millicents, price);
        }
    }
    let lines_therms: i128 = account.lines().iter().map(|line| line.amount.therms).sum();
    assert_eq!(lines_therms + year.open_therms(), year.therms());
    if let Some(settlement) = year.settlement {
        let interim_months_of = |prices: &BTreeMap<u8, Vec<(Item, i128)>>| -> i128 {
            prices
                .iter()
                .filter(|(&month, _)| year.is_interim(month))
                .flat_map(|(_, items)| items)
                .map(|(_, price)| price)
                .sum()
        };
        let interim_price = interim_months_of(&at_opening);
        let final_price = interim_months_of(&priced(settlement.final_increase));
        let lines: i128 = account
            .lines()
            .iter()
            .filter(|line| match line.heading {
                Heading::Month(month, _) => year.is_interim(month),
                heading => heading == Heading::Refund,
            })
            .map(|line| line.amount.millicents)
            .sum();
        assert_eq!(lines, interim_price.min(final_price));
    }
}

/// Makes a call and answers how many were accepted, one or none. No line goes by it, and a call
/// that is refused leaves the account as it was.
fn called(account: &mut Account, call: impl FnOnce(&mut Account) -> Result<(), Refusal>) -> usize {
    let before = account.clone();
    match call(account) {
        Err(_) => {
            assert_eq!(*account, before);
            0
        }
        Ok(()) => {
            assert!(account.lines().starts_with(before.lines()));
            1
        }
    }
}

#[test]
fn the_law_holds_after_each_call() {
    let schedule = account_schedule();
    let (mut settled, mut charged) = (0, 0);
    for seed in 0..12 {
        let journal = Draws(seed).journal();
        let mut account = Account::new(schedule.clone());
        let mut draws = Draws(seed + 1_000);
        for call in Reader::new(&journal.0) {
            called(&mut account, |account| account.enter(call.unwrap()));
            if !matches!(call, Ok(Call::Post(_))) {
                check_law(&account, &schedule);
                let number = draws.below(account.lines().len() as u32 + 2) as usize;
                charged += called(&mut account, |account| account.charge_late(number));
                check_law(&account, &schedule);
            }
        }
        settled += usize::from(account.year().settlement.is_some());
        assert!(account.lines().len() > 100);
    }
    assert!(settled > 3);
    assert!(charged > 100);
}

#[test]
fn no_bytes_make_it_panic() {
    let mut draws = Draws(99);
    for _ in 0..2_000 {
        let length = draws.below(400);
        let bytes: Vec<u8> = (0..length)
            .map(|_| match draws.below(4) {
                0 => draws.below(256) as u8,
                1 => 255,
                _ => draws.below(7) as u8,
            })
            .collect();
        let opened = Journal::default().open(1, 1_000, 0, 11);
        let printed = bill::report::lines(&[opened.0, bytes].concat());
        assert!(printed.ends_with('\n'));
    }
}

#[test]
fn no_spoilt_journal_makes_it_panic() {
    let mut draws = Draws(7);
    let journal = Journal::default()
        .open(0, 137, 0, 0)
        .month(0, |day| balanced(0, day))
        .close(0, 30_000, 1_000, 1_000)
        .settle(100, 20);
    for _ in 0..2_000 {
        let mut bytes = journal.0.clone();
        for _ in 0..=draws.below(3) {
            let place = draws.below(bytes.len() as u32) as usize;
            bytes[place] = draws.below(256) as u8;
        }
        let printed = bill::report::lines(&bytes);
        assert!(printed.contains("\nsum ") || printed.starts_with("no month"));
    }
}
