//! Which journal a seed and a number make.

use crate::makers;
use crate::random::Random;

/// The kinds of journals.
#[derive(Clone, Copy, Debug, PartialEq, Eq, PartialOrd, Ord)]
pub enum Kind {
    /// A whole year as a utility might tell it.
    Year,
    /// A closed, settled year and then nothing but corrections.
    Corrections,
    /// A few months in small numbers.
    Small,
    /// Calls that fail several tests at once, in many states.
    Refusals,
    /// Numbers at their limits and one beyond.
    Limits,
    /// Days and months about tolerances, bands and halves.
    Edges,
    /// Prices at their limit and past it.
    Price,
    /// An account with hardly any room for lines.
    Room,
    /// Corrections that move the first unauthorized day.
    Moves,
    /// A sensible journal that was damaged.
    Damaged,
    /// Random bytes, next to nothing, openings alone.
    Noise,
    /// Random calls, one after another.
    Wander,
    /// As long as a journal may be, or one byte less.
    Full,
    /// Longer than a journal may be.
    TooLong,
}

impl Kind {
    pub const ALL: [Kind; 14] = [
        Kind::Year,
        Kind::Corrections,
        Kind::Small,
        Kind::Refusals,
        Kind::Limits,
        Kind::Edges,
        Kind::Price,
        Kind::Room,
        Kind::Moves,
        Kind::Damaged,
        Kind::Noise,
        Kind::Wander,
        Kind::Full,
        Kind::TooLong,
    ];

    pub fn name(self) -> &'static str {
        match self {
            Kind::Year => "year",
            Kind::Corrections => "corrections",
            Kind::Small => "small",
            Kind::Refusals => "refusals",
            Kind::Limits => "limits",
            Kind::Edges => "edges",
            Kind::Price => "price",
            Kind::Room => "room",
            Kind::Moves => "moves",
            Kind::Damaged => "damaged",
            Kind::Noise => "noise",
            Kind::Wander => "wander",
            Kind::Full => "full",
            Kind::TooLong => "too-long",
        }
    }

    /// How many of a thousand journals are of this kind.
    pub fn weight(self) -> u32 {
        match self {
            Kind::Year => 40,
            Kind::Corrections => 4,
            Kind::Small => 260,
            Kind::Refusals => 170,
            Kind::Limits => 90,
            Kind::Edges => 140,
            Kind::Price => 50,
            Kind::Room => 40,
            Kind::Moves => 70,
            Kind::Damaged => 60,
            Kind::Noise => 24,
            Kind::Wander => 46,
            Kind::Full => 4,
            Kind::TooLong => 2,
        }
    }
}

/// The kind of the journal with this seed and number.
pub fn kind_of(seed: u64, number: u64) -> Kind {
    draw_kind(&mut Random::new(seed, number))
}

/// The journal with this seed and number, and always the same one.
pub fn journal(seed: u64, number: u64) -> Vec<u8> {
    let mut random = Random::new(seed, number);
    let kind = draw_kind(&mut random);
    makers::make(kind, &mut random)
}

fn draw_kind(random: &mut Random) -> Kind {
    let mut drawn = random.below(Kind::ALL.iter().map(|kind| kind.weight()).sum());
    for kind in Kind::ALL {
        if drawn < kind.weight() {
            return kind;
        }
        drawn -= kind.weight();
    }
    Kind::Small
}

#[cfg(test)]
mod tests {
    use super::*;
    use std::collections::BTreeSet;

    #[test]
    fn a_journal_is_a_function_of_its_seed_and_number() {
        for number in 0..500 {
            assert_eq!(journal(7, number), journal(7, number));
        }
        let seeds: BTreeSet<Vec<u8>> = (0..50).map(|seed| journal(seed, 3)).collect();
        assert!(seeds.len() > 40);
        let numbers: BTreeSet<Vec<u8>> = (0..50).map(|number| journal(7, number)).collect();
        assert!(numbers.len() > 40);
    }

    #[test]
    fn weights_are_of_a_thousand_and_each_kind_is_met() {
        let weights: u32 = Kind::ALL.iter().map(|kind| kind.weight()).sum();
        assert_eq!(weights, 1_000);
        let met: BTreeSet<Kind> = (0..5_000).map(|number| kind_of(1, number)).collect();
        assert_eq!(met.len(), Kind::ALL.len());
    }

    #[test]
    fn the_median_is_about_one_to_two_thousand_bytes() {
        let mut sizes: Vec<usize> = (0..1_001).map(|number| journal(2, number).len()).collect();
        sizes.sort_unstable();
        assert!((900..2_100).contains(&sizes[500]), "{}", sizes[500]);
    }
}
