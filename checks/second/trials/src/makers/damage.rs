//! Sensible journals that were damaged.

use super::edges::edges;
use super::moves::moves;
use super::years::{small, year};
use crate::random::Random;
use crate::records::{length, places, Place};

pub fn damaged(random: &mut Random) -> Vec<u8> {
    let mut journal = match random.below(20) {
        0 => year(random),
        1..=4 => moves(random),
        5..=8 => edges(random),
        _ => small(random),
    };
    for _ in 0..random.pick(&[1, 1, 1, 2, 3]) {
        damage(random, &mut journal);
    }
    journal
}

fn damage(random: &mut Random, journal: &mut Vec<u8>) {
    if journal.is_empty() {
        return;
    }
    let any = random.place(journal.len());
    match random.below(11) {
        0 | 1 => {
            for _ in 0..random.between(1, 6) {
                let at = random.place(journal.len());
                journal[at] = random.byte();
            }
        }
        2 => journal[any] = random.byte_between(0, 13),
        3 => journal[any] ^= 1 << random.below(8),
        4 => journal.truncate(any),
        5 => {
            let bytes: Vec<u8> = (0..random.between(1, 30)).map(|_| random.byte()).collect();
            journal.splice(any..any, bytes);
        }
        6 => {
            let end = (any + random.place(30) + 1).min(journal.len());
            journal.drain(any..end);
        }
        7 => {
            let place = any_place(random, journal);
            let kind = random.pick(&[0, 7, 8, 128, 255]);
            if random.chance(50) {
                journal[place.at] = kind;
            } else {
                journal.insert(place.at, kind);
            }
        }
        8 => double(random, journal),
        // A kind without a body at the very end, known or not.
        9 => journal.push(random.pick(&[0, 1, 2, 3, 4, 5, 6, 7, 255])),
        _ => swap(random, journal),
    }
}

fn any_place(random: &mut Random, journal: &[u8]) -> Place {
    random.pick(&places(journal))
}

/// The bytes of a whole record, or of what is left of it.
fn record_at(journal: &[u8], place: Place) -> Vec<u8> {
    let bytes = length(place.kind).unwrap_or(1);
    let end = (place.at + bytes).min(journal.len());
    journal[place.at..end].to_vec()
}

fn double(random: &mut Random, journal: &mut Vec<u8>) {
    let place = any_place(random, journal);
    let record = record_at(journal, place);
    let to = any_place(random, journal).at;
    journal.splice(to..to, record);
}

fn swap(random: &mut Random, journal: &mut Vec<u8>) {
    let (one, two) = (any_place(random, journal), any_place(random, journal));
    let (early, late) = if one.at <= two.at {
        (one, two)
    } else {
        (two, one)
    };
    if early == late {
        return;
    }
    let (first, second) = (record_at(journal, early), record_at(journal, late));
    journal.splice(late.at..late.at + second.len(), first.iter().copied());
    journal.splice(early.at..early.at + first.len(), second);
}
