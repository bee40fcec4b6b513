//! The functions of `libtest_calls.a`, by which tests and benchmarks call the library's calendar and schedules without a
//! table. No other package declares them.

pub mod dates;
pub mod schedules;
