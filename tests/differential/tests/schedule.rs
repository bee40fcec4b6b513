//! Matching and next firing of the library against the reference program.

use reference::answer::Answer;
use reference::calendar::{Clock, Date, LAST_MINUTE};
use reference::random::Random;
use reference::schedule::{samples, Schedule};
use reference::table::documents;
use reference::table::offset::samples::offset;
use reference::table::offset::{EAST, WEST};
use reference::table::samples::schedule_of;
use std::iter;
use test_calls::schedules;

const DAY: u64 = 1_440;
const DAYS: u64 = (LAST_MINUTE + 1) / DAY;

/// A firing that is found is at most so far ahead.
const GAP: u64 = 21_036_960;

const SAMPLES: usize = 200_000;

/// Whether the library matches a minute, compared with the reference program.
fn matches(schedule: &Schedule, minute: u64) -> bool {
    let library = schedules::matches(schedule.numbers(), minute);
    let second = schedule.matches(minute);
    assert_eq!(
        library,
        u64::from(second),
        "{schedule:x?} at {minute}: library, reference program"
    );
    second
}

/// The library's next firing, compared with the reference program's.
fn next_after(schedule: &Schedule, minute: u64) -> Answer {
    let library = schedules::next_after(schedule.numbers(), minute);
    assert_eq!(
        library,
        schedule.next_after(minute),
        "{schedule:x?} after {minute}: library, reference program"
    );
    library
}

/// The library's firings after a minute and up to another, each found from the one before.
fn firings(schedule: &Schedule, start: u64, last: u64) -> Vec<u64> {
    let next = |minute: u64| {
        let firing = match schedules::next_after(schedule.numbers(), minute) {
            Ok(firing) => firing,
            Err(why) => {
                assert!(
                    why == 16 || why == 17,
                    "{schedule:x?} after {minute}: {why}"
                );
                return None;
            }
        };
        assert!(firing > minute, "{schedule:x?} after {minute}: {firing}");
        Some(firing)
    };
    iter::successors(next(start), |&firing| next(firing))
        .take_while(|&firing| firing <= last)
        .collect()
}

#[test]
fn known_days() {
    for (fields, minute, answer) in documents::KNOWN_DAYS {
        assert_eq!(next_after(&schedule_of(fields), minute), answer, "{fields}");
    }
}

#[test]
fn off_the_calendar_comes_before_never() {
    for minute in [LAST_MINUTE + 1, 1 << 32, (1 << 32) + 1, 1 << 63, u64::MAX] {
        for schedule in ["* * * * *", "0 0 29 2 *", "0 0 30 2 *"].map(schedule_of) {
            assert_eq!(next_after(&schedule, minute), Err(14), "minute {minute}");
            assert!(!matches(&schedule, minute), "minute {minute}");
        }
    }
}

#[test]
fn random_schedules_fire_as_by_the_second_program() {
    let mut random = Random::seeded();
    for _ in 0..SAMPLES {
        let schedule = samples::schedule(&mut random);
        let minute = samples::start(&mut random);
        let _ = matches(&schedule, minute);
        if let Ok(firing) = next_after(&schedule, minute) {
            assert!(matches(&schedule, firing));
            let _ = matches(&schedule, firing - 1);
            let _ = next_after(&schedule, firing);
            assert_eq!(next_after(&schedule, firing - 1), Ok(firing));
        }
    }
}

#[test]
fn bits_above_a_width_do_not_count() {
    let mut random = Random::seeded();
    for _ in 0..SAMPLES {
        let schedule = samples::schedule(&mut random).numbers();
        let minute = samples::start(&mut random);
        let mut wide = schedule;
        for (set, width) in wide[1..5].iter_mut().zip([32, 32, 16, 8]) {
            *set |= random.number() << width;
        }
        assert_eq!(
            schedules::next_after(wide, minute),
            schedules::next_after(schedule, minute),
            "{wide:x?} after {minute}"
        );
        assert_eq!(
            schedules::matches(wide, minute),
            schedules::matches(schedule, minute),
            "{wide:x?} at {minute}"
        );
    }
}

#[test]
fn firings_are_the_matching_minutes_of_a_span() {
    let check = |schedule: &Schedule, start: u64, span: u64| {
        let last = LAST_MINUTE.min(start + span);
        let minutes = start + 1..=last;
        let walked: Vec<u64> = minutes.filter(|&m| matches(schedule, m)).collect();
        let found = firings(schedule, start, last);
        assert!(found == walked, "{schedule:x?} from {start} to {last}");
    };
    let known = [
        ("* * * * *", 0, 3 * DAY),
        ("* * * * *", LAST_MINUTE - 10, 10),
        ("0 0 * * *", LAST_MINUTE - 400 * DAY, 400 * DAY),
        ("30 4 1,15 * 5", 0, 400 * DAY),
        ("0 0 29 2 *", 15_863_039, 400 * DAY),
        ("0 0 30 2 1", 15_863_040, 400 * DAY),
    ];
    for (fields, start, span) in known {
        check(&schedule_of(fields), start, span);
    }
    let mut random = Random::seeded();
    for _ in 0..100 {
        let schedule = samples::schedule(&mut random);
        check(&schedule, random.below(LAST_MINUTE + 1), 40 * DAY);
    }
}

/// The first minutes of the days that the clock shows so.
fn shown(on: fn(Date) -> bool) -> Vec<u64> {
    let mut clock = Clock::start();
    let mut shown = Vec::new();
    for day in 0..DAYS {
        if on(clock.at(0, 0)) {
            shown.push(day * DAY);
        }
        clock.step();
    }
    shown
}

#[test]
fn firings_of_the_whole_calendar_are_the_days_of_the_clock() {
    let friday_13 = Schedule {
        days: 1 << 13,
        weekdays: 1 << 5,
        ..schedule_of("0 0 * * *")
    };
    type Row = (Schedule, fn(Date) -> bool);
    let rows: [Row; 8] = [
        (schedule_of("0 0 29 2 *"), |date| {
            (date.month, date.day) == (2, 29)
        }),
        (schedule_of("0 0 30 2 *"), |_| false),
        (schedule_of("0 0 29 2 */7"), |date| {
            (date.month, date.day, date.weekday) == (2, 29, 0)
        }),
        (schedule_of("0 0 */2 * 1"), |date| {
            date.day % 2 == 1 && date.weekday == 1
        }),
        (schedule_of("0 0 31 12 *"), |date| {
            (date.month, date.day) == (12, 31)
        }),
        (schedule_of("0 0 30 2 1"), |date| {
            (date.month, date.weekday) == (2, 1)
        }),
        (friday_13, |date| (date.day, date.weekday) == (13, 5)),
        (
            Schedule {
                stars: [false; 5],
                ..friday_13
            },
            |date| date.day == 13 || date.weekday == 5,
        ),
    ];
    for (schedule, on) in rows {
        let found = firings(&schedule, 0, LAST_MINUTE);
        assert!(found == shown(on), "{schedule:x?}");
    }
}

#[test]
fn a_firing_is_at_most_the_gap_ahead() {
    let mut random = Random::seeded();
    for _ in 0..SAMPLES {
        let schedule = samples::schedule(&mut random);
        let minute = samples::start(&mut random);
        let offset = offset(&mut random);
        let ahead = match schedules::next_under(schedule.numbers(), offset, minute) {
            Ok(firing) => firing - minute,
            // No firing up to the calendar's end.
            Err(17) => LAST_MINUTE - minute,
            Err(_) => continue,
        };
        assert!(
            ahead <= GAP,
            "{schedule:x?} {offset:+} after {minute}: {ahead} ahead"
        );
    }
    // It is reached.
    let leap_sunday = schedules::next_after(schedule_of("0 0 29 2 */7").numbers(), 62_147_520);
    assert_eq!(leap_sunday, Ok(62_147_520 + GAP));
}

/// Before 1970 locally nothing is further ahead than 1996: each day of a leap year has come on each weekday by then.
#[test]
fn before_1970_locally_a_firing_comes_by_1996() {
    const END_OF_1996: u64 = 9_862 * DAY;
    for month in 0..12 {
        for day in 1..=31 {
            for weekday in 0..7 {
                let last = Schedule {
                    days: 1 << day,
                    months: 1 << (month + 1),
                    weekdays: 1 << weekday,
                    ..schedule_of("59 23 * * *")
                };
                match schedules::next_under(last.numbers(), WEST, 0) {
                    Ok(firing) => assert!(firing < END_OF_1996 + 720, "{last:x?}: {firing}"),
                    why => assert_eq!(why, Err(16), "{last:x?}"),
                }
            }
        }
    }
}

/// The slow engine of ticket 2026-07, compared with the quick one and with the reference program, by a local clock.
fn by_clock(schedule: &Schedule, offset: i64, minute: u64) -> Answer {
    let clock = schedules::next_by_clock(schedule.numbers(), offset, minute);
    let search = schedules::next_under(schedule.numbers(), offset, minute);
    let second = schedule.next_under(offset, minute);
    assert_eq!(
        [clock, search],
        [second; 2],
        "{schedule:x?} {offset:+} after {minute}: clock and search, reference program"
    );
    clock
}

/// It walks from minute 0 to the first match, and then from the start to the firing: of both only short ways are asked for.
#[test]
fn the_clock_and_the_search_agree() {
    const NEAR: u64 = 100_000;
    let mut random = Random::seeded();
    let mut asked = 0;
    while asked < 2_000 {
        let schedule = samples::schedule(&mut random);
        let minute = samples::start(&mut random);
        let offset = offset(&mut random);
        let early = schedule.next_after(0).is_ok_and(|first| first <= NEAR);
        let near = schedule
            .next_under(offset, minute)
            .map_or(LAST_MINUTE - NEAR <= minute, |firing| {
                firing - minute <= NEAR
            });
        if early && near {
            let _ = by_clock(&schedule, offset, minute);
            asked += 1;
        }
    }
}

/// Every offset at its ends: before the first local minute and past the last one, and past the calendar in UTC.
#[test]
fn the_clock_and_the_search_agree_at_the_ends() {
    let every_minute = schedule_of("* * * * *");
    for offset in WEST..=EAST {
        let far = offset.unsigned_abs();
        for near in [0, 1, 2, far.saturating_sub(1), far, far + 1] {
            let _ = by_clock(&every_minute, offset, near);
            let _ = by_clock(&every_minute, offset, LAST_MINUTE - near);
        }
        assert_eq!(by_clock(&every_minute, offset, LAST_MINUTE), Err(17));
        for off in [LAST_MINUTE + 1, 1 << 32, u64::MAX] {
            assert_eq!(by_clock(&every_minute, offset, off), Err(14));
        }
    }
}

/// The whole cycle is walked.
#[test]
fn the_clock_says_never_after_the_whole_cycle() {
    let february_30 = schedule_of("0 0 30 2 *");
    for offset in [0, WEST, EAST] {
        assert_eq!(by_clock(&february_30, offset, 0), Err(16));
    }
}
