//! Bytes that nobody would take for a year, and next to none.

use super::manner::opening;
use crate::random::Random;
use crate::records::{length, Record};

pub fn noise(random: &mut Random) -> Vec<u8> {
    match random.below(20) {
        0 => Vec::new(),
        1 => vec![random.byte_between(0, 8)],
        2 => vec![random.byte()],
        3..=5 => (0..random.between(1, 300)).map(|_| random.byte()).collect(),
        6..=8 => (0..random.between(1, 300))
            .map(|_| random.byte_between(1, 6))
            .collect(),
        9..=11 => {
            let mut journal = Vec::new();
            for _ in 0..random.between(1, 12) {
                Record::Open(opening(random)).write(&mut journal);
            }
            journal
        }
        12 | 13 => {
            // A record that lacks its last bytes, or a byte that begins none,
            // alone or behind an opening.
            let mut journal = Vec::new();
            if random.chance(50) {
                Record::Open(opening(random)).write(&mut journal);
            }
            let mut cut = random_record(random, 255);
            cut.truncate(random.place(cut.len()).max(1));
            if random.chance(30) {
                cut = vec![random.pick(&[0, 7, 8, 255])];
            }
            journal.extend(cut);
            journal
        }
        _ => {
            // Whole records with whatever numbers; if these are small, more
            // of them are lawful.
            let most = random.pick(&[1, 3, 11, 255]);
            let mut journal = Vec::new();
            if random.chance(60) {
                Record::Open(opening(random)).write(&mut journal);
            }
            for _ in 0..random.between(1, 40) {
                journal.extend(random_record(random, most));
            }
            journal
        }
    }
}

fn random_record(random: &mut Random, most: u8) -> Vec<u8> {
    let kind = random.byte_between(1, 6);
    let mut record = vec![kind];
    for _ in 1..length(kind).unwrap_or(1) {
        // Mostly only the low bytes of a number are not 0.
        let byte = if random.chance(60) {
            random.byte_between(0, most)
        } else {
            0
        };
        record.push(byte);
    }
    record
}
