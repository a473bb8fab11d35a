//! What a day was, as it is told and as it is taken.

use crate::money::{Millicents, Therms};

/// No nomination, receipts or reading of a day is more.
pub const MOST_THERMS: u32 = 200_000;

/// No rate is more, in millicents per therm.
pub const MOST_RATE: u32 = 2_000_000;

/// The eight numbers that a call has of a day, lawful or not.
#[derive(Clone, Copy, PartialEq, Eq, Debug, Default)]
pub struct DayNumbers {
    pub kind: u8,
    pub curtailed: u8,
    pub nomination: u32,
    pub receipts: u32,
    pub reading: u32,
    pub after_notice: u32,
    pub supply_cost: u32,
    pub variance_rate: u32,
}

impl DayNumbers {
    /// A day's kind is at most 3.
    pub fn is_kind_unlawful(&self) -> bool {
        DayKind::of(self.kind).is_none()
    }

    /// A day's curtailed mark is 0 or 1.
    pub fn is_mark_unlawful(&self) -> bool {
        self.curtailed > 1
    }

    /// A nomination, receipts and a reading are at most 200,000, what was metered after notice is
    /// at most the reading, and the two rates are at most 2,000,000.
    pub fn is_past_a_limit(&self) -> bool {
        [self.nomination, self.receipts, self.reading]
            .iter()
            .any(|&therms| therms > MOST_THERMS)
            || self.after_notice > self.reading
            || [self.supply_cost, self.variance_rate]
                .iter()
                .any(|&rate| rate > MOST_RATE)
    }

    /// The day of these numbers, if they are lawful.
    pub fn day(&self) -> Option<Day> {
        let kind = DayKind::of(self.kind)?;
        let lawful = !self.is_mark_unlawful() && !self.is_past_a_limit();
        lawful.then_some(Day {
            kind,
            curtailed: self.curtailed == 1,
            nomination: self.nomination,
            receipts: self.receipts,
            reading: self.reading,
            after_notice: self.after_notice,
            supply_cost: self.supply_cost,
            variance_rate: self.variance_rate,
        })
    }
}

/// The kind of day that a pipeline declared.
#[derive(Clone, Copy, PartialEq, Eq, Debug, Default)]
pub enum DayKind {
    #[default]
    Normal,
    /// A system under-run limitation.
    Underrun,
    /// A system over-run limitation.
    Overrun,
    Critical,
}

impl DayKind {
    /// 0 normal, 1 under-run limitation, 2 over-run limitation, 3 critical.
    pub fn of(number: u8) -> Option<Self> {
        match number {
            0 => Some(DayKind::Normal),
            1 => Some(DayKind::Underrun),
            2 => Some(DayKind::Overrun),
            3 => Some(DayKind::Critical),
            _ => None,
        }
    }
}

/// A day of lawful numbers.
#[derive(Clone, Copy, PartialEq, Eq, Debug, Default)]
pub struct Day {
    pub kind: DayKind,
    pub curtailed: bool,
    pub nomination: u32,
    pub receipts: u32,
    pub reading: u32,
    pub after_notice: u32,
    pub supply_cost: u32,
    pub variance_rate: u32,
}

impl Day {
    pub fn nominated(&self) -> Therms {
        Therms::from(self.nomination)
    }

    pub fn received(&self) -> Therms {
        Therms::from(self.receipts)
    }

    pub fn used(&self) -> Therms {
        Therms::from(self.reading)
    }

    /// The therms by which the reading exceeds the nomination, or else 0.
    pub fn over(&self) -> Therms {
        Therms::from(self.reading.saturating_sub(self.nomination))
    }

    /// The therms by which the reading falls short of the nomination, or else 0.
    pub fn short(&self) -> Therms {
        Therms::from(self.nomination.saturating_sub(self.reading))
    }

    /// How far nomination and reading are apart.
    pub fn apart(&self) -> Therms {
        Therms::from(self.nomination.abs_diff(self.reading))
    }

    /// Gas left over by a curtailment: the day is curtailed, and its reading below its nomination.
    pub fn is_left_over_by_curtailment(&self) -> bool {
        self.curtailed && self.reading < self.nomination
    }

    /// What one therm of supply cost at most on this day.
    pub fn supply(&self) -> Millicents {
        Millicents::from(self.supply_cost)
    }
}
