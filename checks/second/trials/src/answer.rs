//! What a program printed of a journal, read again: its refusals and lines.

use std::collections::BTreeMap;
use std::fmt::Display;
use std::str::FromStr;

/// A row `refused k n`.
#[derive(Clone, Copy, Debug, PartialEq, Eq)]
pub struct Refusal {
    pub record: usize,
    pub number: u8,
}

/// A row `refused late K n`.
#[derive(Clone, Copy, Debug, PartialEq, Eq)]
pub struct LateRefusal {
    pub line: u64,
    pub number: u8,
}

/// A row of a line, without its number.
#[derive(Clone, Copy, Debug, PartialEq, Eq)]
pub struct Line {
    pub month: u8,
    pub item: u8,
    pub therms: i64,
    pub millicents: i128,
}

#[derive(Clone, Debug, PartialEq, Eq)]
pub enum Answer {
    TooLong,
    Played {
        refusals: Vec<Refusal>,
        lines: Vec<Line>,
        sum: i128,
    },
}

const HEADER: &str = "no month item therms millicents";

impl Answer {
    /// Reads the output, and says why where it is none. Numbers, order and
    /// sum are looked at too: two programs may agree on nonsense.
    pub fn read(output: &[u8]) -> Result<Answer, String> {
        match Answer::read_with_late(output)? {
            (answer, late) if late.is_empty() => Ok(answer),
            _ => Err("refuses late charges".to_string()),
        }
    }

    /// Reads an output likewise in which refusals of late charges stand behind
    /// those of the journal.
    pub fn read_with_late(output: &[u8]) -> Result<(Answer, Vec<LateRefusal>), String> {
        let text = std::str::from_utf8(output).map_err(|_| "is no text".to_string())?;
        if text == "too long\n" {
            return Ok((Answer::TooLong, Vec::new()));
        }
        let Some(text) = text.strip_suffix('\n') else {
            return Err("is empty or does not end in a newline".to_string());
        };
        let mut rows = text.split('\n');
        let mut refusals: Vec<Refusal> = Vec::new();
        let mut late = Vec::new();
        loop {
            let row = rows.next().ok_or("has no header")?;
            if row == HEADER {
                break;
            }
            if row.starts_with("refused late ") {
                late.push(read_late_refusal(row)?);
                continue;
            }
            let refusal = read_refusal(row)?;
            let last = refusals.last().map_or(0, |last| last.record);
            if last >= refusal.record || !late.is_empty() {
                return Err(format!("has a refusal out of order: {row}"));
            }
            refusals.push(refusal);
        }
        let mut lines = Vec::new();
        let mut total = 0;
        let sum = loop {
            let row = rows.next().ok_or("has no sum")?;
            if let Some(sum) = row.strip_prefix("sum ") {
                break exact(sum, row)?;
            }
            let line = read_line(row, lines.len() + 1)?;
            total += line.millicents;
            lines.push(line);
        };
        if rows.next().is_some() {
            return Err("goes on behind the sum".to_string());
        }
        if sum != total {
            return Err(format!("has sum {sum}, and lines that add up to {total}"));
        }
        let answer = Answer::Played {
            refusals,
            lines,
            sum,
        };
        Ok((answer, late))
    }

    pub fn refusals(&self) -> &[Refusal] {
        match self {
            Answer::TooLong => &[],
            Answer::Played { refusals, .. } => refusals,
        }
    }

    pub fn lines(&self) -> &[Line] {
        match self {
            Answer::TooLong => &[],
            Answer::Played { lines, .. } => lines,
        }
    }

    /// The sum of all lines.
    pub fn sum(&self) -> i128 {
        match self {
            Answer::TooLong => 0,
            Answer::Played { sum, .. } => *sum,
        }
    }

    /// How many refusals there are of each number.
    pub fn refused(&self) -> BTreeMap<u8, u64> {
        let mut refused = BTreeMap::new();
        for refusal in self.refusals() {
            *refused.entry(refusal.number).or_insert(0) += 1;
        }
        refused
    }
}

pub(crate) fn read_refusal(row: &str) -> Result<Refusal, String> {
    let fields: Vec<&str> = row.split(' ').collect();
    match fields[..] {
        ["refused", record, refused] => Ok(Refusal {
            record: exact(record, row)?,
            number: exact(refused, row)?,
        }),
        _ => Err(format!("has a strange row before the header: {row}")),
    }
}

fn read_late_refusal(row: &str) -> Result<LateRefusal, String> {
    let fields: Vec<&str> = row.split(' ').collect();
    match fields[..] {
        ["refused", "late", line, refused] => Ok(LateRefusal {
            line: exact(line, row)?,
            number: exact(refused, row)?,
        }),
        _ => Err(format!("has a strange refusal of a late charge: {row}")),
    }
}

fn read_line(row: &str, expected: usize) -> Result<Line, String> {
    let fields: Vec<&str> = row.split(' ').collect();
    match fields[..] {
        [no, month, item, therms, millicents] if no == expected.to_string() => Ok(Line {
            month: exact(month, row)?,
            item: exact(item, row)?,
            therms: exact(therms, row)?,
            millicents: exact(millicents, row)?,
        }),
        _ => Err(format!("has a strange row for line {expected}: {row}")),
    }
}

/// A number just as it is written: `-0` is none, nor is `007`.
pub(crate) fn exact<T: FromStr + Display>(field: &str, row: &str) -> Result<T, String> {
    match field.parse::<T>() {
        Ok(number) if number.to_string() == field => Ok(number),
        _ => Err(format!("has no number in a row: {row}")),
    }
}

#[cfg(test)]
mod tests {
    use super::*;

    #[test]
    fn an_output_is_read_whole() {
        let output = b"refused 3 22\nno month item therms millicents\n\
            1 0 5 10 -310000\n2 12 13 0 -5\nsum -310005\n";
        let answer = Answer::read(output).unwrap();
        assert_eq!(
            answer.refusals(),
            [Refusal {
                record: 3,
                number: 22
            }]
        );
        assert_eq!(answer.lines().len(), 2);
        assert_eq!(answer.lines()[0].therms, 10);
        assert_eq!(Answer::read(b"too long\n"), Ok(Answer::TooLong));
    }

    #[test]
    fn nonsense_is_no_answer() {
        for output in [
            "",
            "\n",
            "sum 0\n",
            "no month item therms millicents\n",
            "no month item therms millicents\nsum 0",
            "no month item therms millicents\nsum 1\n",
            "no month item therms millicents\n2 0 1 0 0\nsum 0\n",
            "refused 2 3\nrefused 2 3\nno month item therms millicents\nsum 0\n",
        ] {
            assert!(Answer::read(output.as_bytes()).is_err(), "{output}");
        }
    }
}
