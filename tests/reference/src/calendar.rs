//! The paper's section "The calendar", by two methods that share nothing: closed forms from minute to date and back,
//! and a clock that carries from one day to the next.

use crate::answer::Answer;

/// 9999-12-31 23:59.
pub const LAST_MINUTE: u64 = 4_223_371_679;

const NOT_ON_CALENDAR: u64 = 14;
const TOO_SHORT: u64 = 18;

const MINUTES_PER_DAY: u64 = 1_440;

#[derive(Clone, Copy, Debug, PartialEq, Eq)]
pub struct Date {
    pub year: u64,
    pub month: u64,
    pub day: u64,
    pub hour: u64,
    pub minute: u64,
    /// Sunday 0 to Saturday 6.
    pub weekday: u64,
}

impl Date {
    /// Year, month, day, hour, minute, weekday.
    pub fn parts(self) -> [u64; 6] {
        [
            self.year,
            self.month,
            self.day,
            self.hour,
            self.minute,
            self.weekday,
        ]
    }
}

/// Year, month, day, hour, minute and weekday at the front of a run: 6, or 14, or 18 where there are fewer places.
pub fn date_into(minute: u64, run: &mut [u16]) -> Answer {
    let date = date_of(minute).ok_or(NOT_ON_CALENDAR)?;
    let places = run.get_mut(..6).ok_or(TOO_SHORT)?;
    for (place, part) in places.iter_mut().zip(date.parts()) {
        *place = part as u16;
    }
    Ok(6)
}

/// The date of a minute, or none if the minute is off the calendar.
pub fn date_of(minute: u64) -> Option<Date> {
    if minute > LAST_MINUTE {
        return None;
    }
    let (year, month, day) = civil_of(minute / MINUTES_PER_DAY + DAYS_BEFORE_1970);
    Some(Date {
        year,
        month,
        day,
        hour: minute / 60 % 24,
        minute: minute % 60,
        weekday: weekday_of(year, month, day),
    })
}

/// The minute of a date, or none if the date doesn't exist or is off the calendar.
pub fn minute_of(year: u64, month: u64, day: u64, hour: u64, minute: u64) -> Option<u64> {
    let in_range = (1970..=9999).contains(&year)
        && (1..=12).contains(&month)
        && (1..=31).contains(&day)
        && hour < 24
        && minute < 60;
    if !in_range {
        return None;
    }
    // A day that its month lacks counts into the next month, and so comes back as another date.
    let days = days_to(year, month, day);
    if civil_of(days) != (year, month, day) {
        return None;
    }
    Some((days - DAYS_BEFORE_1970) * MINUTES_PER_DAY + hour * 60 + minute)
}

// The closed forms. Years are taken to start on 1 March, so that a leap day is the last of its year and the months'
// lengths repeat as 31 30 31 30 31: 153 days for each five months. Days count from 1 March of the year 0. An era is 400
// such years.

const DAYS_PER_ERA: u64 = 146_097;

/// From 0000-03-01 to 1970-01-01.
const DAYS_BEFORE_1970: u64 = 719_468;

/// Year, month and day of a day's number.
fn civil_of(days: u64) -> (u64, u64, u64) {
    let era = days / DAYS_PER_ERA;
    let day_of_era = days % DAYS_PER_ERA;
    let year_of_era = year_of_era(day_of_era);
    let day_of_year = day_of_era - days_before_year(year_of_era);
    let month_from_march = (5 * day_of_year + 2) / 153;
    let day = day_of_year - days_before_month(month_from_march) + 1;
    let year = 400 * era + year_of_era;
    // The tenth and eleventh month from March are January and February of the next year.
    if month_from_march < 10 {
        (year, month_from_march + 3, day)
    } else {
        (year + 1, month_from_march - 9, day)
    }
}

/// A day's number.
fn days_to(year: u64, month: u64, day: u64) -> u64 {
    let (year, month_from_march) = if month > 2 {
        (year, month - 3)
    } else {
        (year - 1, month + 9)
    };
    let day_of_year = days_before_month(month_from_march) + day - 1;
    year / 400 * DAYS_PER_ERA + days_before_year(year % 400) + day_of_year
}

/// The year of a day within its era. Taking off each leap day leaves years of 365 days: one leap day in 4 years (from
/// day 1,460), none in the hundredth (from day 36,524), and again one at the era's end (day 146,096).
fn year_of_era(day: u64) -> u64 {
    (day - day / 1_460 + day / 36_524 - day / 146_096) / 365
}

/// Days of an era before one of its years.
fn days_before_year(year: u64) -> u64 {
    365 * year + year / 4 - year / 100
}

/// Days of a year before a month, March being month 0.
fn days_before_month(month: u64) -> u64 {
    (153 * month + 2) / 5
}

/// Zeller's congruence, by which January and February are months 13 and 14 of the year before. It counts from Saturday.
fn weekday_of(year: u64, month: u64, day: u64) -> u64 {
    let (year, month) = if month > 2 {
        (year, month)
    } else {
        (year - 1, month + 12)
    };
    let from_saturday = day + 13 * (month + 1) / 5 + year + year / 4 - year / 100 + year / 400;
    (from_saturday + 6) % 7
}

/// A clock that shows one day after another, by carrying alone. It starts with 1970-01-01, a Thursday.
#[derive(Clone, Debug)]
pub struct Clock {
    year: u64,
    month: u64,
    day: u64,
    weekday: u64,
}

impl Clock {
    pub fn start() -> Clock {
        Clock {
            year: 1970,
            month: 1,
            day: 1,
            weekday: 4,
        }
    }

    /// On to the next day.
    pub fn step(&mut self) {
        self.weekday = if self.weekday == 6 {
            0
        } else {
            self.weekday + 1
        };
        self.day += 1;
        if self.day > self.month_length() {
            self.day = 1;
            self.month += 1;
        }
        if self.month > 12 {
            self.month = 1;
            self.year += 1;
        }
    }

    /// The day shown, at a time of day.
    pub fn at(&self, hour: u64, minute: u64) -> Date {
        Date {
            year: self.year,
            month: self.month,
            day: self.day,
            hour,
            minute,
            weekday: self.weekday,
        }
    }

    fn month_length(&self) -> u64 {
        const LENGTHS: [u64; 12] = [31, 28, 31, 30, 31, 30, 31, 31, 30, 31, 30, 31];
        let leap = match (self.year % 4, self.year % 100, self.year % 400) {
            (_, _, 0) => true,
            (_, 0, _) => false,
            (0, _, _) => true,
            _ => false,
        };
        if self.month == 2 && leap {
            29
        } else {
            LENGTHS[self.month as usize - 1]
        }
    }
}

#[cfg(test)]
mod tests {
    use super::*;

    #[test]
    fn the_closed_forms_and_the_clock_agree_on_every_day() {
        let mut clock = Clock::start();
        for first in (0..=LAST_MINUTE).step_by(MINUTES_PER_DAY as usize) {
            for (hour, minute) in [(0, 0), (23, 59)] {
                let at = first + hour * 60 + minute;
                let date = clock.at(hour, minute);
                assert_eq!(date_of(at), Some(date), "minute {at}");
                let back = minute_of(date.year, date.month, date.day, hour, minute);
                assert_eq!(back, Some(at), "{date:?}");
            }
            clock.step();
        }
        assert_eq!(clock.at(0, 0).parts()[..3], [10_000, 1, 1]);
    }
}
