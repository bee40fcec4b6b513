//! Minutes and dates.

use crate::calls::counted;
use crate::Run;
use reference::answer::{from_c, Answer};

/// Refusal: minute or date not on the calendar.
pub const NOT_ON_CALENDAR: u64 = 14;

// Numbers in, a number out, nothing required: safe to call with anything.
unsafe extern "C" {
    safe fn eremothyn_minute_of_date(
        year: u64,
        month: u64,
        day: u64,
        hour: u64,
        minute: u64,
    ) -> u64;
    safe fn eremothyn_year(minute: u64) -> u64;
    safe fn eremothyn_month(minute: u64) -> u64;
    safe fn eremothyn_day(minute: u64) -> u64;
    safe fn eremothyn_hour(minute: u64) -> u64;
    safe fn eremothyn_minute_of_hour(minute: u64) -> u64;
    safe fn eremothyn_weekday(minute: u64) -> u64;
}

unsafe extern "C" {
    fn eremothyn_date(minute: u64, run: *mut u16, run_length: u64) -> u64;
}

/// All six parts at the front of a run: how many they are.
pub fn date<'r>(minute: u64, run: impl Into<Run<'r, u16>>) -> Answer {
    let run = run.into();
    // SAFETY: the run has as many numbers as its length says.
    from_c(counted(unsafe {
        eremothyn_date(minute, run.start, run.length)
    }))
}

pub fn minute_of_date(year: u64, month: u64, day: u64, hour: u64, minute: u64) -> Answer {
    from_c(counted(eremothyn_minute_of_date(
        year, month, day, hour, minute,
    )))
}

pub fn year(minute: u64) -> Answer {
    from_c(counted(eremothyn_year(minute)))
}

pub fn month(minute: u64) -> Answer {
    from_c(counted(eremothyn_month(minute)))
}

pub fn day(minute: u64) -> Answer {
    from_c(counted(eremothyn_day(minute)))
}

pub fn hour(minute: u64) -> Answer {
    from_c(counted(eremothyn_hour(minute)))
}

pub fn minute_of_hour(minute: u64) -> Answer {
    from_c(counted(eremothyn_minute_of_hour(minute)))
}

pub fn weekday(minute: u64) -> Answer {
    from_c(counted(eremothyn_weekday(minute)))
}
