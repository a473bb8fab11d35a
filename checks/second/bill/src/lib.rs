//! What a gas account's journal comes to, in lines of money.
//!
//! The account keeps only two lists: the calls that it accepted, and the lines that it wrote.
//! Whatever else is asked of it is worked out from these lists: the year as known is a fold over
//! the calls, a schedule is a class whose ten prices are mapped by one rider after another, and
//! the lines due are what the year's prices have above the lines' sums by heading.

pub mod account;
pub mod calendar;
pub mod cases;
pub mod command;
pub mod day;
pub mod input;
pub mod journal;
pub mod late;
pub mod money;
pub mod pipeline;
pub mod refusal;
pub mod report;
pub mod schedule;
pub mod statement;
pub mod weather;
pub mod year;
