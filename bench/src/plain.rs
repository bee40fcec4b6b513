//! Two well-known ways from a day to its date and back, in plain Rust: those of Hinnant ("chrono-compatible low-level date
//! algorithms", `civil_from_days` and `days_from_civil`) and of Neri and Schneider ("Euclidean affine functions and their
//! application to calendar algorithms", 2023). Both count years from March, so that a leap day is the last of its year.
//! Nothing is checked: a minute has to be on the calendar, and a date has to exist. Each function is called as the
//! library is, and not inlined; a date comes as one number. With the second way the plain minute walk of ticket 2026-07 works
//! out its dates.

use test_calls::dates::{packed, Parts};

const DAY_MINUTES: u64 = 1_440;

/// From 0000-03-01 to 1970-01-01.
const MARCH_DAYS_BEFORE_1970: u32 = 719_468;

/// Year, month and day.
type Civil = (u32, u32, u32);

#[inline(always)]
fn date_by(civil_of: impl Fn(u32) -> Civil, minute: u64) -> u64 {
    let day = (minute / DAY_MINUTES) as u32;
    let time = (minute % DAY_MINUTES) as u32;
    let (year, month, of_month) = civil_of(day);
    packed([year, month, of_month, time / 60, time % 60, (day + 4) % 7].map(u64::from))
}

#[inline(always)]
fn minute_by(day_of: impl Fn(Civil) -> u32, [year, month, day, hour, minute, _]: Parts) -> u64 {
    let days = day_of((year as u32, month as u32, day as u32));
    days as u64 * DAY_MINUTES + hour * 60 + minute
}

#[inline(never)]
pub fn hinnant_date(minute: u64) -> u64 {
    date_by(hinnant_civil, minute)
}

#[inline(never)]
pub fn hinnant_minute(date: Parts) -> u64 {
    minute_by(hinnant_day, date)
}

#[inline(never)]
pub fn neri_schneider_date(minute: u64) -> u64 {
    date_by(neri_schneider_civil, minute)
}

#[inline(never)]
pub fn neri_schneider_minute(date: Parts) -> u64 {
    minute_by(neri_schneider_day, date)
}

#[inline(always)]
fn hinnant_civil(day: u32) -> Civil {
    let z = day + MARCH_DAYS_BEFORE_1970;
    let era = z / 146_097;
    let doe = z - era * 146_097;
    let yoe = (doe - doe / 1_460 + doe / 36_524 - doe / 146_096) / 365;
    let y = yoe + era * 400;
    let doy = doe - (365 * yoe + yoe / 4 - yoe / 100);
    let mp = (5 * doy + 2) / 153;
    let d = doy - (153 * mp + 2) / 5 + 1;
    let m = if mp < 10 { mp + 3 } else { mp - 9 };
    (y + u32::from(m <= 2), m, d)
}

#[inline(always)]
fn hinnant_day((y, m, d): Civil) -> u32 {
    let y = y - u32::from(m <= 2);
    let era = y / 400;
    let yoe = y - era * 400;
    let mp = if m > 2 { m - 3 } else { m + 9 };
    let doy = (153 * mp + 2) / 5 + d - 1;
    let doe = yoe * 365 + yoe / 4 - yoe / 100 + doy;
    era * 146_097 + doe - MARCH_DAYS_BEFORE_1970
}

#[inline(always)]
fn neri_schneider_civil(day: u32) -> Civil {
    // Century.
    let n_1 = 4 * (day + MARCH_DAYS_BEFORE_1970) + 3;
    let c = n_1 / 146_097;
    let n_c = n_1 % 146_097 / 4;
    // Year of the century: 2939745 / 2^32 is 1 / 1461, nearly enough.
    let n_2 = 4 * n_c + 3;
    let p_2 = 2_939_745 * n_2 as u64;
    let z = (p_2 >> 32) as u32;
    let n_y = p_2 as u32 / 2_939_745 / 4;
    let y = 100 * c + z;
    // Month and day: 2141 / 2^16 is 5 / 153, nearly enough.
    let n_3 = 2_141 * n_y + 197_913;
    let m = n_3 >> 16;
    let d = (n_3 & 0xffff) / 2_141;
    // January and February belong to the next year.
    let j = n_y >= 306;
    (y + u32::from(j), if j { m - 12 } else { m }, d + 1)
}

#[inline(always)]
fn neri_schneider_day((y_g, m_g, d_g): Civil) -> u32 {
    let j = m_g <= 2;
    let y = y_g - u32::from(j);
    let m = if j { m_g + 12 } else { m_g };
    let c = y / 100;
    let y_star = 1_461 * y / 4 - c + c / 4;
    let m_star = (979 * m - 2_919) / 32;
    y_star + m_star + (d_g - 1) - MARCH_DAYS_BEFORE_1970
}

/// Sets by their bits, and whether either day field begins with `*`.
#[derive(Clone, Copy)]
pub struct Sets {
    pub minutes: u64,
    pub hours: u32,
    pub days: u32,
    pub months: u32,
    pub weekdays: u32,
    pub both: bool,
}

/// Whether a minute matches, by its date, which is worked out directly. The month is asked first: of the orders tried it is the quickest.
#[inline(always)]
fn matches(sets: &Sets, minute: u32) -> bool {
    let (day, time) = (minute / 1_440, minute % 1_440);
    let (_, month, of_month) = neri_schneider_civil(day);
    let by_day = sets.days >> of_month;
    let by_weekday = sets.weekdays >> ((day + 4) % 7);
    let by_date = if sets.both {
        by_day & by_weekday
    } else {
        by_day | by_weekday
    };
    sets.months >> month & 1 != 0
        && by_date & 1 != 0
        && sets.hours >> (time / 60) & 1 != 0
        && sets.minutes >> (time % 60) & 1 != 0
}

/// The next firing by the plain walk, minute by minute through one cycle of 400 years; none where nothing matches in it.
#[inline(never)]
pub fn minute_walk(sets: &Sets, start: u64) -> Option<u64> {
    const CYCLE: u32 = 210_379_680;
    let first = start as u32 + 1;
    let found = (first..first + CYCLE).find(|&minute| matches(sets, minute));
    found.map(u64::from)
}

/// Calls back for each minute after one and up to another, and for each entry that matches it then, in order. The date is worked out
/// once a minute, and an entry is up to five bit tests: the minute's first, which most fail.
#[inline(never)]
pub fn each_minute(
    entries: &[Option<Sets>],
    after: u64,
    last: u64,
    mut found: impl FnMut(u32, u16),
) {
    for minute in after as u32 + 1..=last as u32 {
        let (day, time) = (minute / 1_440, minute % 1_440);
        let (_, month, of_month) = neri_schneider_civil(day);
        let weekday = (day + 4) % 7;
        let (hour, of_hour) = (time / 60, time % 60);
        for (number, sets) in entries.iter().enumerate() {
            let Some(sets) = sets else { continue };
            let by_day = sets.days >> of_month;
            let by_weekday = sets.weekdays >> weekday;
            let by_date = if sets.both {
                by_day & by_weekday
            } else {
                by_day | by_weekday
            };
            let matches = sets.minutes >> of_hour & 1 != 0
                && sets.hours >> hour & 1 != 0
                && sets.months >> month & 1 != 0
                && by_date & 1 != 0;
            if matches {
                found(minute, number as u16);
            }
        }
    }
}
