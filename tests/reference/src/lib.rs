//! The reference program. It renders the paper's rules once more, from the paper alone, by methods that the library
//! doesn't use, so that the two can be compared. It takes any 64-bit numbers. `random`, `schedule::samples` and
//! `table::samples` are what the comparisons draw from.

pub mod answer;
pub mod calendar;
pub mod command;
pub mod queue;
pub mod random;
pub mod schedule;
pub mod table;
