//! Dates and minutes worked out directly, against the walk year by year and the reference program.

use differential::samples;
use reference::answer::REFUSED;
use reference::calendar::{date_of, minute_of, LAST_MINUTE};
use reference::random::Random;
use std::thread;
use test_calls::dates::{
    calendar_date, calendar_date_by_walk, calendar_minute, calendar_minute_by_walk, packed,
    unpacked,
};

const DAY: u64 = 1_440;
const DAYS: u64 = (LAST_MINUTE + 1) / DAY;

const NOT_ON_CALENDAR: u64 = 14;

const SAMPLES: usize = 200_000;

/// A minute's date, the same by all three.
fn date(minute: u64) -> u64 {
    let direct = calendar_date(minute);
    let walked = calendar_date_by_walk(minute);
    assert_eq!(direct, walked, "minute {minute}: direct, walk");
    let second = match date_of(minute) {
        Some(date) => (0, date.parts()),
        None => (NOT_ON_CALENDAR, [0; 6]),
    };
    assert_eq!(unpacked(direct), second, "minute {minute}: direct, second");
    direct
}

/// A date's minute, the same by all three.
fn minute(date: [u64; 5]) -> u64 {
    let [year, month, day, hour, minute] = date;
    let direct = calendar_minute(year, month, day, hour, minute);
    let walked = calendar_minute_by_walk(year, month, day, hour, minute);
    assert_eq!(direct, walked, "{date:?}: direct, walk");
    let second = minute_of(year, month, day, hour, minute).unwrap_or(REFUSED + NOT_ON_CALENDAR);
    assert_eq!(direct, second, "{date:?}: direct, second");
    direct
}

fn there_and_back(start: u64) {
    let (refusal, [year, month, day, hour, of_hour, _]) = unpacked(date(start));
    assert_eq!(refusal, 0, "minute {start}");
    assert_eq!(minute([year, month, day, hour, of_hour]), start);
}

#[test]
fn every_day_at_its_first_and_last_minute() {
    let threads = thread::available_parallelism().map_or(1, |n| n.get() as u64);
    let check = |share: u64| {
        for day in (share..DAYS).step_by(threads as usize) {
            there_and_back(day * DAY);
            let _ = date(day * DAY + DAY - 1);
        }
    };
    thread::scope(|scope| {
        for share in 0..threads {
            scope.spawn(move || check(share));
        }
    });
}

#[test]
fn every_minute_around_the_centuries() {
    for century in (2000..=9900).step_by(100) {
        let march = minute([century, 3, 1, 0, 0]);
        let next_year = minute([century + 1, 1, 1, 0, 0]);
        for start in [march, next_year] {
            for near in start - DAY..start + DAY {
                there_and_back(near);
            }
        }
    }
}

#[test]
fn month_ends_of_every_year_and_past_them() {
    for year in 1969..=10_000 {
        for month in 0..=13 {
            for day in [0, 1, 2, 28, 29, 30, 31, 32] {
                let _ = minute([year, month, day, 12, 30]);
            }
        }
    }
}

#[test]
fn random_minutes_and_random_numbers() {
    let mut random = Random::seeded();
    for _ in 0..SAMPLES {
        there_and_back(random.below(LAST_MINUTE + 1));
        let width = random.below(64);
        let _ = date(random.number() >> width);
        let _ = minute(samples::date(&mut random));
    }
}

#[test]
fn the_calendar_ends_where_the_paper_says() {
    assert_eq!(date(LAST_MINUTE), packed([9999, 12, 31, 23, 59, 5]));
    assert_eq!(unpacked(date(LAST_MINUTE + 1)), (14, [0; 6]));
    assert_eq!(unpacked(date(u64::MAX)), (14, [0; 6]));
    assert_eq!(minute([10_000, 1, 1, 0, 0]), REFUSED + 14);
}
