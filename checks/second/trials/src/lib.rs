//! Seeded journals of a gas account, and the means to play them into programs
//! of two makers and compare what these print.

pub mod answer;
pub mod arguments;
pub mod asking;
pub mod book;
pub mod choose;
pub mod compare;
pub mod crew;
pub mod journal;
pub mod late;
mod makers;
pub mod random;
pub mod records;
pub mod run;
pub mod sample;
pub mod selection;
pub mod sheet;
pub mod telling;

pub use journal::{journal, kind_of, Kind};
