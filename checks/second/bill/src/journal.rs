//! The bytes of a journal: one record after another, each a call.

use crate::day::DayNumbers;
use crate::refusal::Refusal;
use crate::schedule::Rates;

/// A call on an account, with whatever numbers it has.
#[derive(Clone, Copy, PartialEq, Eq, Debug)]
pub enum Call {
    Open(Opening),
    Post(Told),
    Correct(Told),
    Close { month: u8, rates: Rates },
    Pay { amount: u64 },
    Settle(Settlement),
}

/// What an opening tells.
#[derive(Clone, Copy, PartialEq, Eq, Debug)]
pub struct Opening {
    /// 1 if February has 29 days, 0 if it has 28.
    pub leap: u8,
    /// The interim increase, in per mille.
    pub increase: u16,
    /// The first interim month.
    pub first: u8,
    /// The last interim month.
    pub last: u8,
}

impl Opening {
    /// From the first to the last, both included.
    pub fn is_interim(&self, month: u8) -> bool {
        (self.first..=self.last).contains(&month)
    }
}

/// What a post or a correction tells of a day.
#[derive(Clone, Copy, PartialEq, Eq, Debug)]
pub struct Told {
    pub month: u8,
    /// Counted from 1.
    pub day: u8,
    pub numbers: DayNumbers,
}

/// What a settlement tells, both in per mille.
#[derive(Clone, Copy, PartialEq, Eq, Debug)]
pub struct Settlement {
    pub final_increase: u16,
    pub interest: u16,
}

/// A reader at its place in a journal. It answers call after call, and the refusal of a record
/// that cannot be read as the last.
#[derive(Clone, Debug)]
pub struct Reader<'a> {
    rest: &'a [u8],
}

impl<'a> Reader<'a> {
    pub fn new(journal: &'a [u8]) -> Self {
        Reader { rest: journal }
    }
}

impl Iterator for Reader<'_> {
    type Item = Result<Call, Refusal>;

    fn next(&mut self) -> Option<Self::Item> {
        let (&kind, body) = self.rest.split_first()?;
        let mut body = Body { rest: body };
        let record = match kind {
            1 => body.open(),
            2 => body.day().map(Call::Post),
            3 => body.day().map(Call::Correct),
            4 => body.close(),
            5 => body.pay(),
            6 => body.settle(),
            _ => {
                self.rest = &[];
                return Some(Err(Refusal::UnknownKind));
            }
        };
        // Behind a record that cannot be read, nothing is.
        self.rest = match record {
            Some(_) => body.rest,
            None => &[],
        };
        Some(record.ok_or(Refusal::CutShort))
    }
}

/// The bytes behind a record's kind. A number of several bytes begins with its lowest, and none is
/// answered where the journal ends before it.
struct Body<'a> {
    rest: &'a [u8],
}

impl Body<'_> {
    fn bytes<const N: usize>(&mut self) -> Option<[u8; N]> {
        let (bytes, rest) = self.rest.split_first_chunk()?;
        self.rest = rest;
        Some(*bytes)
    }

    fn one(&mut self) -> Option<u8> {
        self.bytes().map(u8::from_le_bytes)
    }

    fn two(&mut self) -> Option<u16> {
        self.bytes().map(u16::from_le_bytes)
    }

    fn four(&mut self) -> Option<u32> {
        self.bytes().map(u32::from_le_bytes)
    }

    fn eight(&mut self) -> Option<u64> {
        self.bytes().map(u64::from_le_bytes)
    }

    fn open(&mut self) -> Option<Call> {
        Some(Call::Open(Opening {
            leap: self.one()?,
            increase: self.two()?,
            first: self.one()?,
            last: self.one()?,
        }))
    }

    fn day(&mut self) -> Option<Told> {
        Some(Told {
            month: self.one()?,
            day: self.one()?,
            numbers: DayNumbers {
                kind: self.one()?,
                curtailed: self.one()?,
                nomination: self.four()?,
                receipts: self.four()?,
                reading: self.four()?,
                after_notice: self.four()?,
                supply_cost: self.four()?,
                variance_rate: self.four()?,
            },
        })
    }

    fn close(&mut self) -> Option<Call> {
        Some(Call::Close {
            month: self.one()?,
            rates: Rates {
                index: self.four()?,
                interruptible: self.four()?,
                firm: self.four()?,
            },
        })
    }

    fn pay(&mut self) -> Option<Call> {
        Some(Call::Pay {
            amount: self.eight()?,
        })
    }

    fn settle(&mut self) -> Option<Call> {
        Some(Call::Settle(Settlement {
            final_increase: self.two()?,
            interest: self.two()?,
        }))
    }
}

#[cfg(test)]
mod tests {
    use super::*;

    const OPEN: [u8; 6] = [1, 0, 0x89, 0, 0, 0];
    const CLOSE: [u8; 14] = [4, 0, 0x30, 0x75, 0, 0, 0xe8, 3, 0, 0, 0xe8, 3, 0, 0];

    fn read(journal: &[u8]) -> Vec<Result<Call, Refusal>> {
        Reader::new(journal).collect()
    }

    #[test]
    fn the_two_examples() {
        let open = Call::Open(Opening {
            leap: 0,
            increase: 137,
            first: 0,
            last: 0,
        });
        let close = Call::Close {
            month: 0,
            rates: Rates {
                index: 30_000,
                interruptible: 1_000,
                firm: 1_000,
            },
        };
        let journal = [&OPEN[..], &CLOSE[..]].concat();
        assert_eq!(read(&journal), [Ok(open), Ok(close)]);
    }

    #[test]
    fn each_record_is_as_long_as_its_kind() {
        for (kind, length) in [(1, 6), (2, 29), (3, 29), (4, 14), (5, 9), (6, 5)] {
            let mut journal = vec![255; length];
            journal[0] = kind;
            assert!(matches!(read(&journal)[..], [Ok(_)]));
            let shorter = &journal[..length - 1];
            assert_eq!(read(shorter), [Err(Refusal::CutShort)]);
            assert_eq!(read(&[kind]), [Err(Refusal::CutShort)]);
        }
    }

    #[test]
    fn an_unknown_kind_ends_the_reading() {
        assert_eq!(read(&[]), []);
        assert_eq!(read(&[0]), [Err(Refusal::UnknownKind)]);
        assert_eq!(read(&[7]), [Err(Refusal::UnknownKind)]);
        let journal = [&OPEN[..], &[9], &OPEN[..]].concat();
        assert!(matches!(
            read(&journal)[..],
            [Ok(_), Err(Refusal::UnknownKind)]
        ));
    }

    #[test]
    fn a_day_in_the_order_of_its_bytes() {
        let mut journal = vec![3];
        journal.extend(1..=28);
        let told = Told {
            month: 1,
            day: 2,
            numbers: DayNumbers {
                kind: 3,
                curtailed: 4,
                nomination: 0x0807_0605,
                receipts: 0x0c0b_0a09,
                reading: 0x100f_0e0d,
                after_notice: 0x1413_1211,
                supply_cost: 0x1817_1615,
                variance_rate: 0x1c1b_1a19,
            },
        };
        assert_eq!(read(&journal), [Ok(Call::Correct(told))]);
    }
}
