//! Why a record or a call is refused, each reason with its number.

use crate::schedule::Fault;

#[derive(Clone, Copy, PartialEq, Eq, Debug)]
pub enum Refusal {
    /// The record's kind byte is not 1 to 6.
    UnknownKind,
    /// The journal ends before the record's last byte.
    CutShort,
    /// A month above 11, of a statement above 12, or a first interim month after the last.
    Month,
    /// Day 0, or a day past the month's end.
    Day,
    /// A day's kind above 3.
    DayKind,
    /// A leap mark or a curtailed mark above 1.
    Mark,
    /// A number of a day or of a closing past its limit.
    Limit,
    /// An increase, a final increase or an interest above 1,000.
    PerMille,
    /// A payment of 0, or above 10^13.
    Payment,
    /// A call before the opening.
    NotOpened,
    /// An opening of an account that is opened.
    Opened,
    /// A post of a day that is posted.
    Posted,
    /// A correction of a day that is not posted.
    NotPosted,
    /// A closing of another month than the earliest open one.
    NotNext,
    /// A closing of a month that is not complete.
    Incomplete,
    /// A settlement of a settled account.
    Settled,
    /// A settlement while the last interim month is open.
    InterimOpen,
    /// A price that is a fault.
    Price(Fault),
    /// More lines than there is room for.
    Room,
    /// A late charge up to a number that no line has.
    NoLine,
    /// A late charge where too little is owed, or too much.
    Owed,
    /// A late charge up to a line that is not beyond the last one charged for.
    Charged,
}

impl Refusal {
    pub fn number(self) -> u8 {
        match self {
            Refusal::UnknownKind => 1,
            Refusal::CutShort => 2,
            Refusal::Month => 3,
            Refusal::Day => 4,
            Refusal::DayKind => 5,
            Refusal::Mark => 6,
            Refusal::Limit => 7,
            Refusal::PerMille => 8,
            Refusal::Payment => 9,
            Refusal::NotOpened => 20,
            Refusal::Opened => 21,
            Refusal::Posted => 22,
            Refusal::NotPosted => 23,
            Refusal::NotNext => 24,
            Refusal::Incomplete => 25,
            Refusal::Settled => 26,
            Refusal::InterimOpen => 27,
            Refusal::Price(_) => Fault::NUMBER,
            Refusal::Room => 29,
            Refusal::NoLine => 30,
            Refusal::Owed => 31,
            Refusal::Charged => 32,
        }
    }
}

impl From<Fault> for Refusal {
    fn from(fault: Fault) -> Self {
        Refusal::Price(fault)
    }
}
