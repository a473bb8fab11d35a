//! The fixed set of months and schedules, whose prices are printed.

use crate::calendar::days_in;
use crate::day::{Day, DayKind};
use crate::pipeline::{Balance, Pipeline, Tolerance};
use crate::schedule::{Class, Facts, Rates, Rider, Schedule};

/// A month by its facts, on a schedule.
#[derive(Clone, PartialEq, Eq, Debug)]
pub struct Case {
    pub facts: Facts,
    pub schedule: Schedule,
}

/// All cases in order, from case 1 on.
pub fn cases() -> Vec<Case> {
    let it = || small(36_500);
    let on_tolerance = |class| Schedule::new(class, TOLERANCE);
    let affordable_large = || large().under(Rider::Affordability(2_000_000));
    [
        (november(), it()),
        (may(), it()),
        (november(), small(120_000)),
        (november(), large()),
        (may(), large()),
        (november(), on_northern(FIRM)),
        (may(), on_northern(FIRM)),
        (november(), on_tolerance(SMALL_FROM_120_000)),
        (may(), on_tolerance(FIRM)),
        (november(), it().under(Rider::Interim)),
        (november(), it().under(Rider::Franchise(50))),
        (november(), it().under(Rider::Affordability(1_234))),
        (november(), it().under(Rider::Weather(2021))),
        (may(), it().under(Rider::Weather(2021))),
        (
            november(),
            it().under(Rider::Interim).under(Rider::Franchise(50)),
        ),
        (
            november(),
            it().under(Rider::Franchise(50)).under(Rider::Interim),
        ),
        (
            november(),
            it().under(Rider::Franchise(50)).under(Rider::Franchise(25)),
        ),
        (
            november(),
            it().under(Rider::Affordability(1_234))
                .under(Rider::Weather(2021))
                .under(Rider::Interim)
                .under(Rider::Franchise(50)),
        ),
        (critical(), large().under(Rider::Franchise(50))),
        (normal(), affordable_large().under(Rider::Interim)),
        (
            critical(),
            affordable_large()
                .under(Rider::Interim)
                .under(Rider::Franchise(50)),
        ),
        (march(), it()),
        (april(), it()),
        (
            november(),
            it().under(Rider::Affordability(1_234))
                .under(Rider::Affordability(777)),
        ),
        (november(), it().under(Rider::Interim).under(Rider::Interim)),
        (
            november(),
            it().under(Rider::Weather(2021)).under(Rider::Weather(2021)),
        ),
        (idle(), large().under(Rider::Franchise(50))),
    ]
    .into_iter()
    .map(|(facts, schedule)| Case { facts, schedule })
    .collect()
}

/// The schedule of the account whose lines are printed: small dual fuel with an annual usage of
/// 36,500 therms on Northern, the interim rider on it, and a franchise at 50 per mille on that.
pub fn account_schedule() -> Schedule {
    small(36_500)
        .under(Rider::Interim)
        .under(Rider::Franchise(50))
}

const SMALL_FROM_120_000: Class = Class::SmallDualFuel {
    annual_usage: 120_000,
};

const FIRM: Class = Class::FirmInterruptible { base_level: 1_000 };

const TOLERANCE: Pipeline = Pipeline::Tolerance(Tolerance {
    daily_rate: 3_333,
    daily: 4,
    month: Balance {
        tolerance: 3,
        over: 125,
        under: 75,
    },
});

fn on_northern(class: Class) -> Schedule {
    Schedule::new(class, Pipeline::Northern)
}

fn small(annual_usage: u64) -> Schedule {
    on_northern(Class::SmallDualFuel { annual_usage })
}

fn large() -> Schedule {
    on_northern(Class::LargeDualFuel)
}

fn november() -> Facts {
    month(0, mixed(1_000), (30_001, 1_000, 1_200), 137, 5)
}

fn may() -> Facts {
    month(6, mixed(900), (25_003, 900, 1_100), 0, 0)
}

fn critical() -> Facts {
    full(DayKind::Critical)
}

fn normal() -> Facts {
    full(DayKind::Normal)
}

fn idle() -> Facts {
    let idle = Day {
        receipts: 200_000,
        ..Day::default()
    };
    month(1, |_| idle, (30_000, 1_000, 1_000), 1_000, 0)
}

fn march() -> Facts {
    month(4, mixed(1_000), (28_000, 950, 1_150), 50, 0)
}

fn april() -> Facts {
    month(5, mixed(930), (28_000, 950, 1_150), 50, 0)
}

/// A December of full days of a kind.
fn full(kind: DayKind) -> Facts {
    let full = Day {
        kind,
        receipts: 200_000,
        reading: 200_000,
        variance_rate: 2_000_000,
        ..Day::default()
    };
    month(1, |_| full, (30_000, 1_000, 1_000), 1_000, 0)
}

/// A month of a common year whose days go by a formula, counted from 1.
fn month(
    month: u8,
    day: impl Fn(u32) -> Day,
    (index, interruptible, firm): (u32, u32, u32),
    increase: u16,
    first_unauthorized: usize,
) -> Facts {
    let days = days_in(month, false).map_or(0, u32::from);
    Facts {
        month,
        days: (1..=days).map(day).collect(),
        rates: Rates {
            index,
            interruptible,
            firm,
        },
        increase,
        first_unauthorized,
    }
}

/// The mixed day k, on a base of receipts.
fn mixed(base: u32) -> impl Fn(u32) -> Day {
    move |k| {
        let curtailed = k % 5 == 0;
        Day {
            kind: match k % 4 {
                0 => DayKind::Normal,
                1 => DayKind::Underrun,
                2 => DayKind::Overrun,
                _ => DayKind::Critical,
            },
            curtailed,
            nomination: 903 + 11 * k,
            receipts: base + 7 * k,
            reading: 940 + 13 * k - 90 * (k % 3),
            after_notice: if curtailed { 40 + 5 * k } else { 0 },
            supply_cost: 20_000 + 100 * k,
            variance_rate: 30_000 + 50 * k,
        }
    }
}
