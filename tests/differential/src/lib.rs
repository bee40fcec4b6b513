//! The library's calls, each answer compared with the reference program's. Every run of bytes is lent as `guard` has it.

pub mod calendar;
pub mod edits;
pub mod jumps;
pub mod queue;
pub mod records;
pub mod samples;
pub mod spans;
pub mod table;
mod writing;
