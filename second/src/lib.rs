//! The second checker: document 01 and request A1 of document 02 once more, by
//! the plainest methods, for comparing its answers, log by log and table by
//! table, with those of another checker.

pub mod check;
pub mod conditions;
pub mod damage;
pub mod edges;
pub mod generator;
pub mod history;
pub mod lines;
pub mod maker;
pub mod named;
pub mod notation;
pub mod passing;
pub mod record;
pub mod ring;
pub mod small;
pub mod sort;
pub mod source;
pub mod tables;
pub mod verdict;
