//! Chains against the minutes, each asked by itself, and against the slow engine of ticket 2026-07.

use crate::{days, dense, minutes_of, DAY};
use eremothyn::Table;
use reference::calendar::LAST_MINUTE;
use reference::random::Random;
use reference::schedule::Schedule;
use reference::table::{read, When};
use std::iter;
use test_calls::schedules;

#[test]
fn chains_are_the_minutes_that_are_due() {
    let mut random = Random::seeded();
    for _ in 0..150 {
        let (bytes, numbers) = dense(&mut random);
        println!("{} {numbers:?}", bytes.escape_ascii());
        let table = Table::of(&bytes).under(numbers);
        let second = read(&bytes, numbers.rules()).expect("a good table");
        let span = days(&mut random, 3);
        for (entry, by_second) in (0..).zip(&second.entries) {
            let minutes = || span[0] + 1..=span[1];
            let chain = minutes_of(table, entry, span);
            let is_due = |&minute: &u64| table.due(entry, minute) == Ok(1);
            let due: Vec<u64> = minutes().filter(is_due).collect();
            assert_eq!(chain, due, "entry {entry}, {span:?}");
            let matching = minutes().filter(|&minute| by_second.matches(minute));
            assert_eq!(chain, matching.collect::<Vec<u64>>(), "entry {entry}");
        }
    }
}

/// The chain of a schedule by the slow engine, by a local clock.
fn by_clock(schedule: &Schedule, offset: i64, [start, last]: [u64; 2]) -> Vec<u64> {
    let next = |&minute: &u64| schedules::next_by_clock(schedule.numbers(), offset, minute).ok();
    iter::successors(next(&start), next)
        .take_while(|&minute| minute <= last)
        .collect()
}

/// Whether the slow engine has short ways: from minute 0 to the first firing, from the start on to each next one.
fn is_frequent(schedule: &Schedule, offset: i64, span: [u64; 2]) -> bool {
    let near = |offset: i64, minute: u64| match schedule.next_under(offset, minute) {
        Ok(next) => next < minute + DAY,
        Err(_) => LAST_MINUTE < minute + DAY,
    };
    near(0, 0) && span.into_iter().all(|minute| near(offset, minute))
}

#[test]
fn chains_are_the_slow_engines() {
    let mut random = Random::seeded();
    let mut compared = 0;
    while compared < 60 {
        let (bytes, numbers) = dense(&mut random);
        println!("{} {numbers:?}", bytes.escape_ascii());
        let table = Table::of(&bytes).under(numbers);
        let second = read(&bytes, numbers.rules()).expect("a good table");
        let span = days(&mut random, 2);
        for (entry, by_second) in (0..).zip(&second.entries) {
            let When::Times(schedule) = by_second.when else {
                continue;
            };
            if is_frequent(&schedule, by_second.offset, span) {
                let slow = by_clock(&schedule, by_second.offset, span);
                assert_eq!(minutes_of(table, entry, span), slow, "{entry}, {span:?}");
                compared += 1;
            }
        }
    }
}
