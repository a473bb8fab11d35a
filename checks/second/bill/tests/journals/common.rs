//! Journals, written record by record.

use bill::account::{Account, RefusedRecord};
use bill::cases::account_schedule;

/// The numbers of a day as a record has them.
#[derive(Clone, Copy, Default)]
pub struct Day {
    pub month: u8,
    pub day: u8,
    pub kind: u8,
    pub curtailed: u8,
    pub nomination: u32,
    pub receipts: u32,
    pub reading: u32,
    pub after_notice: u32,
    pub supply_cost: u32,
    pub variance_rate: u32,
}

/// A normal day with 100 therms nominated, received and used.
pub fn balanced(month: u8, day: u8) -> Day {
    Day {
        month,
        day,
        nomination: 100,
        receipts: 100,
        reading: 100,
        ..Day::default()
    }
}

/// How many days each month of a common year has.
pub const DAYS: [u8; 12] = [30, 31, 31, 28, 31, 30, 31, 30, 31, 31, 30, 31];

/// A journal as it is written.
#[derive(Clone, Default)]
pub struct Journal(pub Vec<u8>);

impl Journal {
    pub fn open(mut self, leap: u8, increase: u16, first: u8, last: u8) -> Self {
        self.0.extend([1, leap]);
        self.0.extend(increase.to_le_bytes());
        self.0.extend([first, last]);
        self
    }

    pub fn post(self, day: Day) -> Self {
        self.day(2, day)
    }

    pub fn correct(self, day: Day) -> Self {
        self.day(3, day)
    }

    fn day(mut self, kind: u8, day: Day) -> Self {
        self.0
            .extend([kind, day.month, day.day, day.kind, day.curtailed]);
        let numbers = [
            day.nomination,
            day.receipts,
            day.reading,
            day.after_notice,
            day.supply_cost,
            day.variance_rate,
        ];
        self.0.extend(numbers.iter().flat_map(|n| n.to_le_bytes()));
        self
    }

    /// Posts all days of a month of a common year.
    pub fn month(self, month: u8, day: impl Fn(u8) -> Day) -> Self {
        (1..=DAYS[usize::from(month)]).fold(self, |journal, number| journal.post(day(number)))
    }

    pub fn close(mut self, month: u8, index: u32, interruptible: u32, firm: u32) -> Self {
        self.0.extend([4, month]);
        for rate in [index, interruptible, firm] {
            self.0.extend(rate.to_le_bytes());
        }
        self
    }

    pub fn pay(mut self, amount: u64) -> Self {
        self.0.push(5);
        self.0.extend(amount.to_le_bytes());
        self
    }

    pub fn pay_times(self, amount: u64, times: usize) -> Self {
        (0..times).fold(self, |journal, _| journal.pay(amount))
    }

    pub fn settle(mut self, final_increase: u16, interest: u16) -> Self {
        self.0.push(6);
        self.0.extend(final_increase.to_le_bytes());
        self.0.extend(interest.to_le_bytes());
        self
    }

    /// What `lines` prints of it.
    pub fn printed(&self) -> String {
        bill::report::lines(&self.0)
    }

    /// The rows of `lines`, each without its newline.
    pub fn rows(&self) -> Vec<String> {
        self.printed().lines().map(String::from).collect()
    }

    fn played(&self) -> (Account, Vec<RefusedRecord>) {
        let mut account = Account::new(account_schedule());
        let refused = account.play(&self.0);
        (account, refused)
    }

    /// The account that it makes.
    pub fn account(&self) -> Account {
        self.played().0
    }

    /// The numbers of the refused records and of their refusals.
    pub fn refused(&self) -> Vec<(usize, u8)> {
        let (_, refused) = self.played();
        refused
            .iter()
            .map(|record| (record.number, record.refusal.number()))
            .collect()
    }

    /// The refusal's number of the last record, or none if it was accepted. All before it are.
    pub fn last(&self, records: usize) -> Option<u8> {
        match self.refused()[..] {
            [] => None,
            [(number, refusal)] if number == records => Some(refusal),
            ref more => panic!("{more:?}"),
        }
    }
}

/// The example of the documents.
pub fn worked_november() -> Journal {
    Journal::default()
        .open(0, 137, 0, 0)
        .month(0, |day| balanced(0, day))
        .close(0, 30_000, 1_000, 1_000)
        .correct(Day {
            reading: 90,
            ..balanced(0, 30)
        })
        .settle(100, 20)
}
