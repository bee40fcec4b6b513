//! Schedules and starts for the comparisons: those at which a search goes wrong, from tables, and any others.

use super::{Schedule, MINUTES_PER_DAY};
use crate::calendar::{minute_of, LAST_MINUTE};
use crate::random::Random;

/// Days, months and weekdays.
pub type DaySets = (u32, u16, u8);

pub const ALL_MINUTES: u64 = 0x0fff_ffff_ffff_ffff;
pub const ALL_HOURS: u32 = 0x00ff_ffff;
pub const ALL_DAYS: u32 = 0xffff_fffe;
pub const ALL_MONTHS: u16 = 0x1ffe;
pub const ALL_WEEKDAYS: u8 = 0x7f;

const FEBRUARY: u16 = 1 << 2;
const APRIL: u16 = 1 << 4;
const DECEMBER: u16 = 1 << 12;
const SHORT_MONTHS: u16 = FEBRUARY | APRIL | 1 << 6 | 1 << 9 | 1 << 11;

const MONDAY: u8 = 1 << 1;
const FRIDAY: u8 = 1 << 5;

pub const DAY_SETS: [DaySets; 51] = [
    (ALL_DAYS, ALL_MONTHS, ALL_WEEKDAYS),
    // ends of February
    (1 << 28, FEBRUARY, ALL_WEEKDAYS),
    (1 << 29, FEBRUARY, ALL_WEEKDAYS),
    (1 << 30, FEBRUARY, ALL_WEEKDAYS),
    (1 << 31, FEBRUARY, ALL_WEEKDAYS),
    (1 << 30, FEBRUARY, MONDAY),
    (1 << 29 | 1 << 30 | 1 << 31, FEBRUARY, FRIDAY),
    (1 << 29, FEBRUARY, 1 << 0),
    (1 << 29, FEBRUARY, 1 << 1),
    (1 << 29, FEBRUARY, 1 << 2),
    (1 << 29, FEBRUARY, 1 << 3),
    (1 << 29, FEBRUARY, 1 << 4),
    (1 << 29, FEBRUARY, 1 << 5),
    (1 << 29, FEBRUARY, 1 << 6),
    // ends of other months
    (1 << 29, ALL_MONTHS, ALL_WEEKDAYS),
    (1 << 30, ALL_MONTHS, ALL_WEEKDAYS),
    (1 << 31, ALL_MONTHS, ALL_WEEKDAYS),
    (1 << 31, SHORT_MONTHS, ALL_WEEKDAYS),
    (1 << 31, SHORT_MONTHS, MONDAY),
    (1 << 31, APRIL, ALL_WEEKDAYS),
    (1 << 30 | 1 << 31, FEBRUARY | APRIL, ALL_WEEKDAYS),
    (1 << 31, DECEMBER, ALL_WEEKDAYS),
    (1 << 31, DECEMBER, FRIDAY),
    // single weekdays
    (ALL_DAYS, ALL_MONTHS, 1 << 0),
    (ALL_DAYS, ALL_MONTHS, 1 << 1),
    (ALL_DAYS, ALL_MONTHS, 1 << 2),
    (ALL_DAYS, ALL_MONTHS, 1 << 3),
    (ALL_DAYS, ALL_MONTHS, 1 << 4),
    (ALL_DAYS, ALL_MONTHS, 1 << 5),
    (ALL_DAYS, ALL_MONTHS, 1 << 6),
    (ALL_DAYS, DECEMBER, MONDAY),
    // a day and a weekday
    (1 << 1, 1 << 1, 1 << 4),
    (1 << 13, ALL_MONTHS, FRIDAY),
    (1 << 1 | 1 << 15, ALL_MONTHS, FRIDAY),
    (1 << 13 | 1 << 31, SHORT_MONTHS, MONDAY | FRIDAY),
    (ALL_DAYS & !(1 << 29), FEBRUARY, ALL_WEEKDAYS & !FRIDAY),
    // single months
    (ALL_DAYS, FEBRUARY, ALL_WEEKDAYS),
    (ALL_DAYS, DECEMBER, ALL_WEEKDAYS),
    // empty sets
    (0, ALL_MONTHS, ALL_WEEKDAYS),
    (ALL_DAYS, 0, ALL_WEEKDAYS),
    (ALL_DAYS, ALL_MONTHS, 0),
    (1 << 29, FEBRUARY, 0),
    (0, FEBRUARY, MONDAY),
    (0, 0, 0),
    // stray bits: day 0, months 0, 13, 14 and 15, weekday 7
    (!0, !0, !0),
    (1 << 0, ALL_MONTHS, ALL_WEEKDAYS),
    (ALL_DAYS, !ALL_MONTHS, ALL_WEEKDAYS),
    (ALL_DAYS, ALL_MONTHS, 1 << 7),
    (1 << 13, ALL_MONTHS, 1 << 7),
    (1 << 0, !0, 1 << 6 | 1 << 7),
    (1 << 0 | 1 << 29, 1 << 0 | FEBRUARY | 1 << 13, !0),
];

/// Minutes and hours.
const TIME_SETS: [(u64, u32); 10] = [
    (1 << 0, 1 << 0),
    (1 << 59, 1 << 23),
    (1 << 30, 1 << 4),
    (1 << 0 | 1 << 59, 1 << 0 | 1 << 23),
    (1 << 0, ALL_HOURS),
    (ALL_MINUTES, 1 << 12),
    (ALL_MINUTES, ALL_HOURS),
    // stray bits: minutes 60 to 63, hours 24 to 31
    (!0, !0),
    (!ALL_MINUTES, !0),
    (!0, !ALL_HOURS),
];

/// Whether the field of the days, and whether that of the weekdays begins with a star.
pub const STARS: [(bool, bool); 4] = [(false, false), (true, false), (false, true), (true, true)];

/// Year, month, day.
const DATES: [[u64; 3]; 23] = [
    [1970, 1, 1],
    [1970, 2, 1],
    [1970, 3, 1],
    [1971, 5, 1],
    [1972, 2, 29],
    [2000, 1, 1],
    [2000, 2, 29],
    [2000, 3, 1],
    [2038, 1, 19],
    [2088, 2, 29],
    [2096, 2, 29],
    [2096, 3, 1],
    [2100, 1, 1],
    [2100, 3, 1],
    [2104, 2, 29],
    [2104, 3, 1],
    [2300, 3, 1],
    [2396, 2, 29],
    [2400, 2, 29],
    [2400, 3, 1],
    [9996, 2, 29],
    [9996, 3, 1],
    [9999, 12, 31],
];

/// The last minute of the first cycle, 2369-12-31 23:59.
const CYCLE_END: u64 = 210_379_679;

const ENDS: [u64; 10] = [
    0,
    CYCLE_END - 1,
    CYCLE_END,
    CYCLE_END + 1,
    LAST_MINUTE - 1,
    LAST_MINUTE,
    LAST_MINUTE + 1,
    1 << 32,
    1 << 63,
    u64::MAX,
];

pub fn schedule(random: &mut Random) -> Schedule {
    let day_sets = match random.below(2) {
        0 => random.pick(&DAY_SETS),
        _ => (
            set(random, 32) as u32,
            set(random, 16) as u16,
            set(random, 8) as u8,
        ),
    };
    let stars = random.pick(&STARS);
    with_times(random, day_sets, stars)
}

/// A schedule of given days at random times.
pub fn with_times(
    random: &mut Random,
    (days, months, weekdays): DaySets,
    (days_star, weekdays_star): (bool, bool),
) -> Schedule {
    let (minutes, hours) = match random.below(3) {
        0 => (set(random, 64), set(random, 32) as u32),
        _ => random.pick(&TIME_SETS),
    };
    Schedule {
        minutes,
        hours,
        days,
        months,
        weekdays,
        stars: [false, false, days_star, false, weekdays_star],
    }
}

/// A set: full, nearly full, nearly empty, sparse, or any. Only its lowest `width` bits are meant.
fn set(random: &mut Random, width: u64) -> u64 {
    let one = 1 << random.below(width);
    match random.below(6) {
        0 => !0,
        1 => !one,
        2 => one,
        3 => one | 1 << random.below(width),
        4 => random.number() & random.number() & random.number(),
        _ => random.number(),
    }
}

/// A minute to start from. Some are off the calendar.
pub fn start(random: &mut Random) -> u64 {
    match random.below(8) {
        0 | 1 => {
            let date = random.pick(&DATES);
            near(random, date)
        }
        2 => {
            let date = [1970 + random.below(8_030), 1 + random.below(12), 1];
            near(random, date)
        }
        3 => {
            // In three centuries out of four the leap day is missed out.
            let date = [2000 + 100 * random.below(80), 3, 1];
            near(random, date)
        }
        4 => random.pick(&ENDS),
        5 => LAST_MINUTE - sized(random, 31),
        6 => sized(random, 64),
        _ => random.below(LAST_MINUTE + 1),
    }
}

/// A number of up to so many bits, each size as likely as another.
fn sized(random: &mut Random, bits: u64) -> u64 {
    let size = 1 + random.below(bits);
    random.number() >> (64 - size)
}

/// A minute about the start of a date, or of the day before or after.
fn near(random: &mut Random, [year, month, day]: [u64; 3]) -> u64 {
    let minute = minute_of(year, month, day, 0, 0).expect("a date of the calendar");
    let later = minute + random.below(3) * MINUTES_PER_DAY + random.below(5);
    later.saturating_sub(MINUTES_PER_DAY + 2)
}
