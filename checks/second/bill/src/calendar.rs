//! Months of a gas year, from 0, November, to 11, October.

/// How many months a gas year has.
pub const MONTHS: u8 = 12;

/// How many days a month has: February, month 3, has 29 in a leap year. No other number is a month.
pub fn days_in(month: u8, leap: bool) -> Option<u8> {
    match month {
        3 if leap => Some(29),
        3 => Some(28),
        0 | 5 | 7 | 10 => Some(30),
        1 | 2 | 4 | 6 | 8 | 9 | 11 => Some(31),
        _ => None,
    }
}

/// A calendar month; an earlier one is the lesser.
#[derive(Clone, Copy, PartialEq, Eq, PartialOrd, Ord, Debug)]
pub struct CalendarMonth {
    pub year: u32,
    /// From 1, January, to 12, December.
    pub month: u8,
}

/// A gas year has the name of the year in which it starts: its months 0 and 1 are November and
/// December of that year, and its months 2 to 11 are January to October of the next.
pub fn calendar_month(gas_year: u16, month: u8) -> CalendarMonth {
    let year = u32::from(gas_year);
    match month {
        0 | 1 => CalendarMonth {
            year,
            month: month + 11,
        },
        _ => CalendarMonth {
            year: year + 1,
            month: month - 1,
        },
    }
}

#[cfg(test)]
mod tests {
    use super::*;

    #[test]
    fn a_year_has_365_or_366_days() {
        let days = |leap| {
            (0..MONTHS)
                .filter_map(|month| days_in(month, leap))
                .map(u32::from)
                .sum::<u32>()
        };
        assert_eq!(days(false), 365);
        assert_eq!(days(true), 366);
        assert_eq!(days_in(12, true), None);
        assert_eq!(days_in(255, false), None);
    }

    #[test]
    fn months_of_gas_year_2021() {
        let at = |month| {
            let found = calendar_month(2021, month);
            (found.year, found.month)
        };
        assert_eq!(at(0), (2021, 11));
        assert_eq!(at(1), (2021, 12));
        assert_eq!(at(2), (2022, 1));
        assert_eq!(at(11), (2022, 10));
    }
}
