//! Whole journals, played.

mod common;
mod late;
mod law;
mod lines;
mod statements;
