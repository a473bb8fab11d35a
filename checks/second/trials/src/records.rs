//! The six records of a journal, and their bytes.

#[derive(Clone, Copy, Debug, PartialEq, Eq)]
pub struct Opening {
    pub leap: u8,
    pub increase: u16,
    pub first: u8,
    pub last: u8,
}

#[derive(Clone, Copy, Debug, Default, PartialEq, Eq)]
pub struct Day {
    pub month: u8,
    pub day: u8,
    pub kind: u8,
    pub curtailed: u8,
    pub nomination: u32,
    pub receipts: u32,
    pub reading: u32,
    pub after_notice: u32,
    pub supply_cost: u32,
    pub variance_rate: u32,
}

#[derive(Clone, Copy, Debug, PartialEq, Eq)]
pub struct Closing {
    pub month: u8,
    pub index: u32,
    pub interruptible: u32,
    pub firm: u32,
}

#[derive(Clone, Copy, Debug, PartialEq, Eq)]
pub struct Settlement {
    pub final_increase: u16,
    pub interest: u16,
}

#[derive(Clone, Copy, Debug, PartialEq, Eq)]
pub enum Record {
    Open(Opening),
    Post(Day),
    Correct(Day),
    Close(Closing),
    Pay(u64),
    Settle(Settlement),
}

impl Record {
    /// Puts the record's bytes behind those that are there: the kind byte,
    /// then each number with its lowest byte first.
    pub fn write(self, into: &mut Vec<u8>) {
        match self {
            Record::Open(opening) => {
                into.push(1);
                into.push(opening.leap);
                into.extend(opening.increase.to_le_bytes());
                into.push(opening.first);
                into.push(opening.last);
            }
            Record::Post(day) => {
                into.push(2);
                write_day(day, into);
            }
            Record::Correct(day) => {
                into.push(3);
                write_day(day, into);
            }
            Record::Close(closing) => {
                into.push(4);
                into.push(closing.month);
                into.extend(closing.index.to_le_bytes());
                into.extend(closing.interruptible.to_le_bytes());
                into.extend(closing.firm.to_le_bytes());
            }
            Record::Pay(amount) => {
                into.push(5);
                into.extend(amount.to_le_bytes());
            }
            Record::Settle(settlement) => {
                into.push(6);
                into.extend(settlement.final_increase.to_le_bytes());
                into.extend(settlement.interest.to_le_bytes());
            }
        }
    }

    pub fn bytes(self) -> Vec<u8> {
        let mut bytes = Vec::new();
        self.write(&mut bytes);
        bytes
    }
}

fn write_day(day: Day, into: &mut Vec<u8>) {
    into.extend([day.month, day.day, day.kind, day.curtailed]);
    for number in [
        day.nomination,
        day.receipts,
        day.reading,
        day.after_notice,
        day.supply_cost,
        day.variance_rate,
    ] {
        into.extend(number.to_le_bytes());
    }
}

/// How many bytes a record of a kind has, its kind byte included.
pub fn length(kind: u8) -> Option<usize> {
    match kind {
        1 => Some(6),
        2 | 3 => Some(29),
        4 => Some(14),
        5 => Some(9),
        6 => Some(5),
        _ => None,
    }
}

/// Where a record begins, and its kind byte.
#[derive(Clone, Copy, Debug, PartialEq, Eq)]
pub struct Place {
    pub at: usize,
    pub kind: u8,
}

/// The places of a journal's records, in order. Where reading ends with an
/// unknown kind or a record that is cut off, that place is the last.
pub fn places(journal: &[u8]) -> Vec<Place> {
    let mut places = Vec::new();
    let mut at = 0;
    while let Some(&kind) = journal.get(at) {
        places.push(Place { at, kind });
        match length(kind) {
            Some(length) => at += length,
            None => break,
        }
    }
    places
}

/// The journal's whole records, in order, up to where reading ends.
pub fn read(journal: &[u8]) -> Vec<Record> {
    let mut records = Vec::new();
    for place in places(journal) {
        let end = length(place.kind).map(|length| place.at + length);
        let Some(body) = end.and_then(|end| journal.get(place.at + 1..end)) else {
            break;
        };
        records.push(read_record(place.kind, body));
    }
    records
}

/// A record of a body that is as long as its kind says.
fn read_record(kind: u8, body: &[u8]) -> Record {
    let short = |at: usize| u16::from_le_bytes([body[at], body[at + 1]]);
    let long = |at: usize| u32::from(short(at)) | u32::from(short(at + 2)) << 16;
    match kind {
        1 => Record::Open(Opening {
            leap: body[0],
            increase: short(1),
            first: body[3],
            last: body[4],
        }),
        2 | 3 => {
            let day = Day {
                month: body[0],
                day: body[1],
                kind: body[2],
                curtailed: body[3],
                nomination: long(4),
                receipts: long(8),
                reading: long(12),
                after_notice: long(16),
                supply_cost: long(20),
                variance_rate: long(24),
            };
            if kind == 2 {
                Record::Post(day)
            } else {
                Record::Correct(day)
            }
        }
        4 => Record::Close(Closing {
            month: body[0],
            index: long(1),
            interruptible: long(5),
            firm: long(9),
        }),
        5 => Record::Pay(u64::from(long(0)) | u64::from(long(4)) << 32),
        _ => Record::Settle(Settlement {
            final_increase: short(0),
            interest: short(2),
        }),
    }
}

#[cfg(test)]
mod tests {
    use super::*;

    const DAY: Day = Day {
        month: 3,
        day: 29,
        kind: 2,
        curtailed: 1,
        nomination: 0x0102_0304,
        receipts: 5,
        reading: 0x0600,
        after_notice: 7,
        supply_cost: 2_000_000,
        variance_rate: u32::MAX,
    };

    const DAY_BYTES: [u8; 28] = [
        3, 29, 2, 1, 4, 3, 2, 1, 5, 0, 0, 0, 0, 6, 0, 0, 7, 0, 0, 0, 0x80, 0x84, 0x1e, 0, 255, 255,
        255, 255,
    ];

    #[test]
    fn an_opening_has_its_bytes() {
        let opening = Record::Open(Opening {
            leap: 0,
            increase: 137,
            first: 0,
            last: 11,
        });
        assert_eq!(opening.bytes(), [1, 0, 0x89, 0, 0, 11]);
    }

    #[test]
    fn a_post_and_a_correction_have_their_bytes() {
        let mut posted = vec![2];
        posted.extend(DAY_BYTES);
        assert_eq!(Record::Post(DAY).bytes(), posted);
        let mut corrected = vec![3];
        corrected.extend(DAY_BYTES);
        assert_eq!(Record::Correct(DAY).bytes(), corrected);
    }

    #[test]
    fn a_closing_has_its_bytes() {
        let closing = Record::Close(Closing {
            month: 0,
            index: 30_000,
            interruptible: 1_000,
            firm: 1_000,
        });
        let bytes = [4, 0, 0x30, 0x75, 0, 0, 0xe8, 3, 0, 0, 0xe8, 3, 0, 0];
        assert_eq!(closing.bytes(), bytes);
    }

    #[test]
    fn a_payment_has_its_bytes() {
        let bytes = [5, 0, 0xa0, 0x72, 0x4e, 0x18, 9, 0, 0];
        assert_eq!(Record::Pay(10_000_000_000_000).bytes(), bytes);
    }

    #[test]
    fn a_settlement_has_its_bytes() {
        let settlement = Record::Settle(Settlement {
            final_increase: 1_000,
            interest: 20,
        });
        assert_eq!(settlement.bytes(), [6, 0xe8, 3, 20, 0]);
    }

    #[test]
    fn records_are_as_long_as_their_kind_says_and_are_read_again() {
        let records = [
            Record::Open(Opening {
                leap: 0,
                increase: 0,
                first: 0,
                last: 0,
            }),
            Record::Post(DAY),
            Record::Correct(DAY),
            Record::Close(Closing {
                month: 0,
                index: 0,
                interruptible: 0,
                firm: 0,
            }),
            Record::Pay(0x0102_0304_0506_0708),
            Record::Settle(Settlement {
                final_increase: 0,
                interest: 0,
            }),
        ];
        for record in records {
            let mut bytes = record.bytes();
            assert_eq!(length(bytes[0]), Some(bytes.len()));
            assert_eq!(read(&bytes), [record]);
            bytes.pop();
            assert_eq!(read(&bytes), []);
        }
    }

    #[test]
    fn places_end_where_reading_does() {
        let mut journal = Record::Pay(1).bytes();
        journal.extend([6, 0, 0, 0, 0, 7, 5]);
        let at: Vec<usize> = places(&journal).iter().map(|place| place.at).collect();
        assert_eq!(at, [0, 9, 14]);
        assert_eq!(places(&[5, 0]), [Place { at: 0, kind: 5 }]);
        assert_eq!(places(&[]), []);
    }
}
