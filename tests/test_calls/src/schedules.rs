//! Schedules by their numbers: minutes, hours, days, months, weekdays, and both stars in bits 0 and 1. Hours and days are
//! taken modulo 2^32, months modulo 2^16, weekdays modulo 2^8.

use reference::answer::{from_c, Answer};

// The six numbers, the minutes by which the local clock is ahead of UTC, if there is a clock, and a minute. Numbers in, a number
// out, nothing required: safe to call with anything.
unsafe extern "C" {
    safe fn schedule_next(_: u64, _: u64, _: u64, _: u64, _: u64, _: u64, _: i32, _: u64) -> u64;
    safe fn schedule_next_by_clock(
        _: u64,
        _: u64,
        _: u64,
        _: u64,
        _: u64,
        _: u64,
        _: i32,
        _: u64,
    ) -> u64;
    safe fn schedule_matches(_: u64, _: u64, _: u64, _: u64, _: u64, _: u64, _: u64) -> u64;
}

/// The next firing after a minute, or the number of a refusal.
pub fn next_after(numbers: [u64; 6], minute: u64) -> Answer {
    next_under(numbers, 0, minute)
}

/// The same by a local clock, so many minutes ahead of UTC; the minute given and the one answered are UTC. An offset that no table
/// can have counts as 0.
pub fn next_under([a, b, c, d, e, stars]: [u64; 6], offset: i64, minute: u64) -> Answer {
    from_c(schedule_next(a, b, c, d, e, stars, offset as i32, minute))
}

/// The same by the slow engine, minute by minute. An entry that never fires takes seconds.
pub fn next_by_clock([a, b, c, d, e, stars]: [u64; 6], offset: i64, minute: u64) -> Answer {
    from_c(schedule_next_by_clock(
        a,
        b,
        c,
        d,
        e,
        stars,
        offset as i32,
        minute,
    ))
}

/// 1 if a minute matches, 0 if not.
pub fn matches([a, b, c, d, e, stars]: [u64; 6], minute: u64) -> u64 {
    schedule_matches(a, b, c, d, e, stars, minute)
}
