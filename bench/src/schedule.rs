//! The next firing after each of many starts (ticket 2026-07): the search alone, which is the one that answers a table's entries, at
//! offset 0; the same by a table's bytes, which are read at each call; and the plain minute walk, with a date worked out directly at
//! each minute. The walk takes seconds, and so has one round only.

use crate::measure::{in_turn, round};
use crate::plain::{minute_walk, Sets};
use eremothyn::Table;
use reference::schedule::Schedule;
use reference::table::samples::schedule_of;
use std::hint::black_box;
use std::time::Instant;
use test_calls::schedules;

/// An entry's fields, and how many starts it is asked for, 100,000 minutes apart. The walk over 40 years is long, and over 400.
const ROWS: [(&str, u64); 6] = [
    ("0 0 29 2 *", 1_000),
    ("30 4 1,15 * 5", 1_000),
    ("*/5 * * * *", 1_000),
    ("0 0 29 2 */7", 40),
    ("0 0 31 2,4 *", 1),
    ("59 23 31 12 *", 1_000),
];

pub fn run() {
    println!("schedule, next firing after 0, 100000, 200000 and on, ns each");
    println!(
        "{:<16}{:>8}{:>14}{:>10}{:>14}{:>10}{:>10}",
        "", "starts", "minute walk", "search", "times", "by bytes", "times"
    );
    for (fields, count) in ROWS {
        row(fields, count);
    }
    println!("times: how many times as long the walk takes; goals of the first: 60000 and 20000 (the ticket: 1000)");
}

fn row(fields: &str, count: u64) {
    let schedule = schedule_of(fields);
    let numbers = schedule.numbers();
    let sets = sets_of(&schedule);
    let line = format!("{fields} /usr/local/bin/dome check --wind 25\n");
    let starts: Vec<u64> = (0..count).map(|n| n * 100_000).collect();

    let before = Instant::now();
    let walked: Vec<Option<u64>> = starts
        .iter()
        .map(|&start| minute_walk(black_box(&sets), black_box(start)))
        .collect();
    let walk = before.elapsed().as_nanos() as f64 / count as f64;

    let search = |start: u64| schedules::next_after(numbers, start).ok();
    let by_bytes = |start: u64| Table::of(line.as_bytes()).next(0, start).ok();
    for (&start, &firing) in starts.iter().zip(&walked) {
        assert_eq!(search(start), firing, "{fields} after {start}");
        assert_eq!(by_bytes(start), firing, "{fields} after {start}");
    }
    let asked = starts.repeat(1_000 / starts.len());
    let times = in_turn(&[&|| round(&asked, search), &|| round(&asked, by_bytes)]);
    println!(
        "{fields:<16}{count:>8}{walk:>14.0}{:>10.1}{:>14.0}{:>10.1}{:>10.0}",
        times[0],
        walk / times[0],
        times[1],
        walk / times[1]
    );
}

pub fn sets_of(schedule: &Schedule) -> Sets {
    let [minutes, hours, days, months, weekdays, stars] = schedule.numbers();
    Sets {
        minutes,
        hours: hours as u32,
        days: days as u32,
        months: months as u32,
        weekdays: weekdays as u32,
        both: stars != 0,
    }
}
