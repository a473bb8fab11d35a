//! The makers of each kind of journal.

mod aimed;
mod course;
mod damage;
mod edges;
mod full;
mod limits;
mod manner;
mod moves;
mod noise;
mod price;
mod refusals;
mod room;
mod wander;
mod years;

use crate::journal::Kind;
use crate::random::Random;

pub fn make(kind: Kind, random: &mut Random) -> Vec<u8> {
    match kind {
        Kind::Year => years::year(random),
        Kind::Corrections => years::corrections(random),
        Kind::Small => years::small(random),
        Kind::Refusals => refusals::refusals(random),
        Kind::Limits => limits::limits(random),
        Kind::Edges => edges::edges(random),
        Kind::Price => price::price(random),
        Kind::Room => room::room(random),
        Kind::Moves => moves::moves(random),
        Kind::Damaged => damage::damaged(random),
        Kind::Noise => noise::noise(random),
        Kind::Wander => wander::wander(random),
        Kind::Full => full::full(random),
        Kind::TooLong => full::too_long(random),
    }
}
