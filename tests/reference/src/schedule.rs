//! The paper's "Match" and its next firing. A minute is judged by its date from the closed forms. The next firing is
//! found without them: a table has every day of the cycle as the clock shows it, the days are gone through one by one,
//! and each day has the same list of times.

pub mod samples;

use crate::answer::Answer;
use crate::calendar::{date_of, Clock, LAST_MINUTE};
use std::sync::OnceLock;

/// Refusal: the minute isn't on the calendar.
const NOT_ON_CALENDAR: u64 = 14;

/// Refusal: no minute of the cycle matches.
const NEVER: u64 = 16;

/// Refusal: a minute of the cycle matches, but none that is left on the calendar.
const PAST_THE_END: u64 = 17;

const MINUTES_PER_DAY: u64 = 1_440;
const DAYS: u64 = (LAST_MINUTE + 1) / MINUTES_PER_DAY;
const DAYS_PER_CYCLE: usize = 146_097;

/// The places of the two day fields among the five.
const DAYS_FIELD: usize = 2;
const WEEKDAYS_FIELD: usize = 4;

/// Bit n of a set is the value n. Bits outside a field's limits are allowed, and no date has them.
#[derive(Clone, Copy, Debug, PartialEq, Eq)]
pub struct Schedule {
    pub minutes: u64,
    pub hours: u32,
    pub days: u32,
    pub months: u16,
    /// Sunday 0 to Saturday 6.
    pub weekdays: u8,
    /// Whether each field begins with `*`, in the order of the sets. Matching looks at those of the days and the weekdays.
    pub stars: [bool; 5],
}

impl Schedule {
    /// Whether a minute matches; none does off the calendar.
    pub fn matches(&self, minute: u64) -> bool {
        date_of(minute).is_some_and(|date| {
            self.has_time(date.hour, date.minute)
                && self.has_day(date.month, date.day, date.weekday)
        })
    }

    /// The least matching minute strictly after a minute, or 14, 16 or 17.
    pub fn next_after(&self, minute: u64) -> Answer {
        self.next_under(0, minute)
    }

    /// The same by a local clock, so many minutes ahead of UTC; the minute given and the one answered are UTC. Local days are
    /// gone through, from the one before the minute's own in UTC: no clock is a whole day off.
    pub fn next_under(&self, offset: i64, minute: u64) -> Answer {
        if minute > LAST_MINUTE {
            return Err(NOT_ON_CALENDAR);
        }
        let times = self.times();
        if times.is_empty() || !distinct().iter().any(|&shown| self.has_shown(shown)) {
            return Err(NEVER);
        }
        let firing_on = |day: u64| {
            let local = times.iter().map(|time| day * MINUTES_PER_DAY + time);
            let mut firings = local.filter_map(|local| local.checked_add_signed(-offset));
            firings.find(|&firing| firing > minute)
        };
        let first = (minute / MINUTES_PER_DAY).saturating_sub(1);
        (first..DAYS)
            .filter(|&day| self.has_shown(cycle()[day as usize % DAYS_PER_CYCLE]))
            .find_map(firing_on)
            .filter(|&firing| firing <= LAST_MINUTE)
            .ok_or(PAST_THE_END)
    }

    /// The same by the plain walk, asking one minute after another; none where the walk reaches the calendar's end.
    pub fn walk(&self, minute: u64) -> Option<u64> {
        (minute.saturating_add(1)..=LAST_MINUTE).find(|&later| self.matches(later))
    }

    /// All matching minutes after a minute and up to another, rising, by a local clock as `next_under` has it. Local days are
    /// gone through, from the one before the first minute's own to the one after the last's.
    pub fn all_under(&self, offset: i64, after: u64, last: u64) -> impl Iterator<Item = u64> {
        let (schedule, times) = (*self, self.times());
        let first_day = (after / MINUTES_PER_DAY).saturating_sub(1);
        let days = first_day..DAYS.min(last / MINUTES_PER_DAY + 2);
        let shown =
            days.filter(move |&day| schedule.has_shown(cycle()[day as usize % DAYS_PER_CYCLE]));
        let firings = shown.flat_map(move |day| {
            let local = times.clone().into_iter();
            local.filter_map(move |time| (day * MINUTES_PER_DAY + time).checked_add_signed(-offset))
        });
        firings.filter(move |&firing| after < firing && firing <= last)
    }

    /// As C hands it over: minutes, hours, days, months, weekdays, and the stars of days and weekdays in bits 0 and 1.
    pub fn numbers(&self) -> [u64; 6] {
        [
            self.minutes,
            self.hours.into(),
            self.days.into(),
            self.months.into(),
            self.weekdays.into(),
            u64::from(self.stars[DAYS_FIELD]) + 2 * u64::from(self.stars[WEEKDAYS_FIELD]),
        ]
    }

    fn has_time(&self, hour: u64, minute: u64) -> bool {
        has(self.hours, hour) && has(self.minutes, minute)
    }

    fn has_day(&self, month: u64, day: u64, weekday: u64) -> bool {
        let by_day = has(self.days, day);
        let by_weekday = has(self.weekdays, weekday);
        let by_date = match self.stars[DAYS_FIELD] || self.stars[WEEKDAYS_FIELD] {
            true => by_day && by_weekday,
            false => by_day || by_weekday,
        };
        has(self.months, month) && by_date
    }

    fn has_shown(&self, shown: Shown) -> bool {
        let [month, day, weekday] = shown.map(u64::from);
        self.has_day(month, day, weekday)
    }

    /// The minutes of a day at which the schedule fires, in order.
    fn times(&self) -> Vec<u64> {
        (0..MINUTES_PER_DAY)
            .filter(|time| self.has_time(time / 60, time % 60))
            .collect()
    }
}

fn has(set: impl Into<u64>, value: u64) -> bool {
    set.into() >> value & 1 == 1
}

/// What the clock shows on a day: month, day, weekday.
type Shown = [u8; 3];

/// Every day of the cycle, from 1970-01-01 on.
fn cycle() -> &'static [Shown] {
    static CYCLE: OnceLock<Vec<Shown>> = OnceLock::new();
    CYCLE.get_or_init(|| {
        let mut clock = Clock::start();
        let mut show = || {
            let date = clock.at(0, 0);
            clock.step();
            [date.month, date.day, date.weekday].map(|part| part as u8)
        };
        (0..DAYS_PER_CYCLE).map(|_| show()).collect()
    })
}

/// The same days, each once: enough to say whether any of them is in a schedule.
fn distinct() -> &'static [Shown] {
    static DISTINCT: OnceLock<Vec<Shown>> = OnceLock::new();
    DISTINCT.get_or_init(|| {
        let mut days = cycle().to_vec();
        days.sort();
        days.dedup();
        days
    })
}

#[cfg(test)]
mod tests {
    use super::*;
    use crate::random::Random;

    #[test]
    fn the_table_has_every_day_of_the_calendar() {
        for day in 0..DAYS {
            let date = date_of(day * MINUTES_PER_DAY).expect("a day of the calendar");
            let shown = cycle()[day as usize % DAYS_PER_CYCLE].map(u64::from);
            assert_eq!(shown, [date.month, date.day, date.weekday], "day {day}");
        }
    }

    #[test]
    fn every_date_falls_on_every_weekday() {
        assert_eq!(distinct().len(), 366 * 7);
    }

    #[test]
    fn the_table_and_the_walk_agree() {
        // As far as is walked where there may be no firing.
        const NEAR: u64 = 20_000;
        let mut random = Random::seeded();
        for _ in 0..5_000 {
            let schedule = samples::schedule(&mut random);
            let minute = samples::start(&mut random);
            let case = format!("{schedule:x?} after {minute}");
            match schedule.next_after(minute) {
                Ok(firing) if firing - minute <= NEAR => {
                    assert_eq!(schedule.walk(minute), Some(firing), "{case}");
                }
                _ => {
                    let last = LAST_MINUTE.min(minute.saturating_add(NEAR));
                    let mut near = (minute..=last).skip(1);
                    assert!(!near.any(|later| schedule.matches(later)), "{case}");
                }
            }
        }
    }

    /// A list by days is what asking every minute of the span finds, under every sort of clock.
    #[test]
    fn the_days_and_the_minutes_agree() {
        let mut random = Random::seeded();
        let mut firings = 0;
        for _ in 0..2_000 {
            let schedule = samples::schedule(&mut random);
            let after = samples::start(&mut random).min(LAST_MINUTE);
            let last = LAST_MINUTE.min(after + random.below(5_000));
            let offset = random.below(1_561) as i64 - 720;
            let matches = |minute: &u64| {
                let local = minute.checked_add_signed(offset);
                local.is_some_and(|local| schedule.matches(local))
            };
            let listed: Vec<u64> = schedule.all_under(offset, after, last).collect();
            let asked: Vec<u64> = (after + 1..=last).filter(matches).collect();
            assert_eq!(listed, asked, "{schedule:x?} {offset} {after} {last}");
            firings += listed.len();
        }
        assert!(firings > 10_000, "{firings} firings");
    }
}
