//! The calendar of the library, through its C functions, against the reference program's closed forms and its clock.
//! `date`s here are rows of year, month, day, hour and minute.

use differential::calendar::{answers, date, minute_of, parts};
use differential::samples;
use eremothyn::Answer;
use reference::calendar::{Clock, LAST_MINUTE};
use reference::random::Random;
use std::thread;

const DAY: u64 = 1_440;
const DAYS: u64 = (LAST_MINUTE + 1) / DAY;
/// The 400 years after which the calendar repeats.
const CYCLE: u64 = 146_097 * DAY;

const SAMPLES: usize = 200_000;

/// From a minute to its date and back.
fn there_and_back(minute: u64) -> [Answer; 6] {
    let there = parts(minute);
    let date = [0, 1, 2, 3, 4].map(|part: usize| there[part].expect("a minute of the calendar"));
    assert_eq!(minute_of(date), Ok(minute), "there and back by {date:?}");
    there
}

#[test]
fn every_day_at_its_first_and_last_minute_is_what_the_clock_shows() {
    // Each thread walks the whole clock, which is quick, and checks its share of the days.
    let threads = thread::available_parallelism().map_or(1, |n| n.get() as u64);
    let walk = |share: u64| {
        let mut clock = Clock::start();
        for day in 0..DAYS {
            if day % threads == share {
                let first = day * DAY;
                assert_eq!(there_and_back(first), answers(clock.at(0, 0)));
                assert_eq!(there_and_back(first + DAY - 1), answers(clock.at(23, 59)));
            }
            clock.step();
        }
        assert_eq!(clock.at(0, 0).parts()[..3], [10_000, 1, 1]);
    };
    thread::scope(|scope| {
        for share in 0..threads {
            scope.spawn(move || walk(share));
        }
    });
}

#[test]
fn month_ends_of_every_year_are_where_the_second_program_has_them() {
    for year in 1970..=9999 {
        for month in 1..=12 {
            for day in [0, 1, 28, 29, 30, 31, 32] {
                let _ = minute_of([year, month, day, 23, 59]);
            }
        }
    }
}

#[test]
fn dates_that_do_not_exist_are_refused() {
    const MAX: u64 = u64::MAX;
    let dates = [
        // 29 February of a year that isn't leap
        [1971, 2, 29, 0, 0],
        [2100, 2, 29, 0, 0],
        [2200, 2, 29, 0, 0],
        [2300, 2, 29, 0, 0],
        [2500, 2, 29, 0, 0],
        [9900, 2, 29, 0, 0],
        [9999, 2, 29, 0, 0],
        // days that no year has
        [2000, 2, 30, 0, 0],
        [2000, 2, 31, 0, 0],
        [2000, 4, 31, 0, 0],
        [2000, 6, 31, 0, 0],
        [2000, 9, 31, 0, 0],
        [2000, 11, 31, 0, 0],
        [2000, 1, 0, 0, 0],
        [2000, 3, 0, 0, 0],
        [2000, 1, 32, 0, 0],
        [2000, 12, 32, 0, 0],
        // other parts just past their limits
        [2000, 0, 1, 0, 0],
        [2000, 13, 1, 0, 0],
        [2000, 1, 1, 24, 0],
        [2000, 1, 1, 0, 60],
        [2000, 12, 31, 24, 0],
        [2000, 12, 31, 23, 60],
        [9999, 12, 31, 24, 0],
        // years off the calendar
        [0, 1, 1, 0, 0],
        [1900, 1, 1, 0, 0],
        [1969, 12, 31, 23, 59],
        [1968, 2, 29, 0, 0],
        [10_000, 1, 1, 0, 0],
        [1 << 32, 1, 1, 0, 0],
        [1 << 63, 1, 1, 0, 0],
        [MAX, 1, 1, 0, 0],
        // nothing at all, and all at once
        [0, 0, 0, 0, 0],
        [MAX, MAX, MAX, MAX, MAX],
    ];
    for date in dates {
        assert_eq!(minute_of(date), Err(14), "{date:?}");
    }
}

#[test]
fn parts_that_are_valid_only_in_their_low_bits_are_refused() {
    // Year 9996, since eight bits more are off the calendar there too.
    let date = [9996, 2, 29, 12, 34];
    assert!(minute_of(date).is_ok());
    for part in 0..5 {
        for high in [1 << 8, 1 << 16, 1 << 32, 1 << 48, 1 << 63] {
            let mut wide = date;
            wide[part] += high;
            assert_eq!(minute_of(wide), Err(14), "{wide:?}");
        }
        for value in [1 << 32, 1 << 63, u64::MAX] {
            let mut wide = date;
            wide[part] = value;
            assert_eq!(minute_of(wide), Err(14), "{wide:?}");
        }
    }
}

#[test]
fn known_dates_have_their_minutes_and_weekdays() {
    let rows = [
        ([1970, 1, 1, 0, 0], 0, "Thursday"),
        ([1970, 1, 1, 0, 1], 1, "Thursday"),
        ([1970, 1, 1, 23, 59], 1_439, "Thursday"),
        ([1970, 1, 2, 0, 0], 1_440, "Friday"),
        ([1972, 2, 29, 0, 0], 1_136_160, "Tuesday"),
        ([2000, 2, 29, 0, 0], 15_863_040, "Tuesday"),
        ([2000, 3, 1, 0, 0], 15_864_480, "Wednesday"),
        ([2038, 1, 19, 3, 14], 35_791_394, "Tuesday"),
        ([2096, 2, 29, 0, 0], 66_355_200, "Wednesday"),
        ([2100, 2, 28, 23, 59], 68_459_039, "Sunday"),
        ([2100, 3, 1, 0, 0], 68_459_040, "Monday"),
        ([2104, 2, 29, 0, 0], 70_561_440, "Friday"),
        ([2400, 2, 29, 0, 0], 226_242_720, "Tuesday"),
        ([9996, 2, 29, 0, 0], 4_221_352_800, "Thursday"),
        ([9999, 12, 31, 23, 59], 4_223_371_679, "Friday"),
    ];
    let weekdays = [
        "Sunday",
        "Monday",
        "Tuesday",
        "Wednesday",
        "Thursday",
        "Friday",
        "Saturday",
    ];
    for (date, minute, weekday) in rows {
        assert_eq!(minute_of(date), Ok(minute), "{date:?}");
        let shown = there_and_back(minute);
        assert_eq!(shown[..5], date.map(Ok), "minute {minute}");
        assert_eq!(
            shown[5].map(|n| weekdays[n as usize]),
            Ok(weekday),
            "{date:?}"
        );
    }
}

#[test]
fn minutes_past_the_last_are_refused_in_every_part() {
    assert_eq!(parts(4_223_371_679), [9999, 12, 31, 23, 59, 5].map(Ok));
    let minutes = [
        4_223_371_680,
        4_223_371_680 + 1_440,
        (1 << 32) - 1,
        1 << 32,
        (1 << 32) + 1,
        (1 << 32) + 14,
        (1 << 32) + 4_223_371_679,
        1 << 63,
        (1 << 63) + 15_863_040,
        u64::MAX,
    ];
    for minute in minutes {
        assert_eq!(parts(minute), [Err(14); 6], "minute {minute}");
    }
}

#[test]
fn random_minutes_go_there_and_back() {
    let mut random = Random::seeded();
    for _ in 0..SAMPLES {
        let _ = there_and_back(random.below(LAST_MINUTE + 1));
    }
}

#[test]
fn random_numbers_are_judged_as_by_the_second_program() {
    let mut random = Random::seeded();
    for _ in 0..SAMPLES {
        // Every width in turn, so that minutes of the calendar are among them.
        let width = random.below(64);
        let _ = parts(random.number() >> width);
        let _ = minute_of(samples::date(&mut random));
        // Most parts are as they should be, and perhaps one is any number.
        let mut date = [
            1970 + random.below(8_030),
            1 + random.below(12),
            1 + random.below(31),
            random.below(24),
            random.below(60),
        ];
        let width = random.below(64);
        let part = random.below(5) as usize;
        date[part] = random.number() >> width;
        let _ = minute_of(date);
    }
}

#[test]
fn every_minute_of_some_days_goes_there_and_back() {
    let mut random = Random::seeded();
    let known = [
        0,
        15_863_040,
        66_355_200,
        68_459_040 - DAY,
        LAST_MINUTE + 1 - DAY,
    ];
    let drawn = [(); 20].map(|_| random.below(DAYS) * DAY);
    for first in known.into_iter().chain(drawn) {
        for of_day in 0..DAY {
            let shown = there_and_back(first + of_day);
            assert_eq!(shown[3..5], [Ok(of_day / 60), Ok(of_day % 60)]);
        }
    }
}

/// All six parts in one call, in runs of every length about six: 14 comes before 18.
#[test]
fn whole_dates() {
    let mut random = Random::seeded();
    let ends = [0, 1, 1_439, LAST_MINUTE - 1, LAST_MINUTE];
    for length in 0..10 {
        let expected = if length < 6 { Err(18) } else { Ok(6) };
        let drawn = [(); 2_000].map(|_| random.below(LAST_MINUTE + 1));
        for minute in ends.into_iter().chain(drawn) {
            assert_eq!(date(minute, length), expected);
        }
        for minute in [LAST_MINUTE + 1, 1 << 32, (1 << 32) + 7, 1 << 63, u64::MAX] {
            assert_eq!(date(minute, length), Err(14));
        }
    }
    let mut run = [7; 7];
    assert_eq!(eremothyn::date(29_911_830, &mut run[..]), Ok(6));
    assert_eq!(run, [2026, 11, 15, 2, 30, 0, 7]);
}

#[test]
fn a_cycle_later_only_the_year_differs() {
    let mut random = Random::seeded();
    for _ in 0..SAMPLES {
        let minute = random.below(LAST_MINUTE + 1 - CYCLE);
        let mut later = parts(minute);
        later[0] = later[0].map(|year| year + 400);
        assert_eq!(parts(minute + CYCLE), later, "minute {minute}");
    }
}

#[test]
fn a_day_later_the_weekday_is_the_next() {
    let mut random = Random::seeded();
    for _ in 0..SAMPLES {
        let minute = random.below(LAST_MINUTE + 1 - DAY);
        let next = eremothyn::weekday(minute).map(|weekday| (weekday + 1) % 7);
        assert_eq!(eremothyn::weekday(minute + DAY), next, "minute {minute}");
    }
}
