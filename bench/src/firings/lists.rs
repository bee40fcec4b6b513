//! The calls. All methods fill the same runs, which are compared first.

use crate::measure::{in_turn, print_head, print_row, round};
use crate::plain::{each_minute, Sets};
use crate::schedule;
use crate::table::{entries_alone, LISTS, WRITTEN};
use eremothyn::{Filled, Table};
use reference::calendar::{minute_of, LAST_MINUTE};
use reference::table::{read, Kind, When};
use std::cell::RefCell;
use std::time::Instant;

/// The minutes of 151 days.
pub fn winter() -> [u64; 2] {
    [(2026, 11, 1), (2027, 4, 1)].map(|(year, month, day)| {
        minute_of(year, month, day, 0, 0).expect("a date of the calendar") - 1
    })
}

/// The library should be so many times as fast as the plain loop.
const GOAL: f64 = 3.0;

/// The reference program's lists take long, and have one round only.
fn once<T>(work: impl FnOnce() -> T) -> (T, f64) {
    let start = Instant::now();
    let answer = work();
    (answer, start.elapsed().as_nanos() as f64)
}

/// Each entry's sets, none where it fires at boot alone.
fn sets_of(table: &[u8]) -> Vec<Option<Sets>> {
    let table = read(table, Kind::User).expect("a good table");
    let sets = |when: &When| match when {
        When::Reboot => None,
        When::Times(schedule) => Some(schedule::sets_of(schedule)),
    };
    table
        .entries
        .iter()
        .map(|entry| sets(&entry.when))
        .collect()
}

/// Reads the table, and asks every entry at every minute.
fn plain(table: &[u8], [a, b]: [u64; 2], runs: &mut (Vec<u32>, Vec<u16>)) -> usize {
    let sets = sets_of(table);
    let mut count = 0;
    each_minute(&sets, a, b, |minute, entry| {
        runs.0[count] = minute;
        runs.1[count] = entry;
        count += 1;
    });
    count
}

fn library(table: &[u8], span: [u64; 2], runs: &mut (Vec<u32>, Vec<u16>)) -> usize {
    let filled = Table::of(table).merged_firings(span, &mut runs.0[..], &mut runs.1[..]);
    let Ok(Filled { count, more: false }) = filled else {
        panic!("not a whole list: {filled:?}");
    };
    count as usize
}

/// The reference program's list, in two runs.
fn second(table: &[u8], [a, b]: [u64; 2]) -> (Vec<u32>, Vec<u16>) {
    let calls = reference::table::calls::Calls::of(table, Kind::User);
    let most = usize::MAX - 1;
    let (list, _) = calls.merged_firings(a, b, [most; 2]).expect("a list");
    list.into_iter().unzip()
}

pub fn merged() {
    print_head(
        "firings, 512 entries over a winter, a firing of the merged list",
        &["plain loop", "reference program"],
    );
    let rare = [
        "0 0 29 2 * /bin/a",
        "59 23 31 12 * /bin/b",
        "0 12 14 2 * /bin/c",
    ];
    row("as people write them", &entries_alone(&WRITTEN));
    row("lists in every field", &entries_alone(&LISTS));
    row("every day", &entries_alone(&["30 22 * * * /bin/a"]));
    row("a few days a year", &entries_alone(&rare));
    row("8, every minute", "* * * * * /bin/a\n".repeat(8).as_bytes());
    println!("(times the library's); goal beside the plain loop: {GOAL} for what people write");
}

fn row(what: &str, table: &[u8]) {
    let span = winter();
    let (expected, slow) = once(|| second(table, span));
    let count = expected.0.len();
    let mut runs = (vec![0; count], vec![0; count]);
    assert_eq!(plain(table, span, &mut runs), count);
    assert!(runs == expected, "the plain loop lists something else");
    let mut runs = (vec![0; count], vec![0; count]);
    assert_eq!(library(table, span, &mut runs), count);
    assert!(runs == expected, "the library lists something else");
    let runs = RefCell::new(runs);
    let times = in_turn(&[
        &|| {
            round(&[table], |table| {
                library(table, span, &mut runs.borrow_mut())
            })
        },
        &|| round(&[table], |table| plain(table, span, &mut runs.borrow_mut())),
    ]);
    let each = |time: f64| time / count.max(1) as f64;
    print_row(
        &format!("{what} ({count})"),
        each(times[0]),
        &[each(times[1]), each(slow)],
    );
}

/// What an entry is, its fields, and its span.
const ENTRIES: [(&str, &str, [u64; 2]); 4] = [
    ("29 Feb, 8,030 years", "0 0 29 2 *", [0, LAST_MINUTE]),
    (
        "13 Sun or Fri, 8,030 years",
        "0 0 13 * */5",
        [0, LAST_MINUTE],
    ),
    (
        "every minute, a year",
        "* * * * *",
        [29_800_000, 30_325_600],
    ),
    (
        "every five, a year",
        "*/5 * * * *",
        [29_800_000, 30_325_600],
    ),
];

pub fn of_entries() {
    print_head(
        "firings, one entry, a firing of its list",
        &["asking for the next", "reference program"],
    );
    for (what, fields, span) in ENTRIES {
        let line = format!("{fields} /usr/local/bin/dome check --wind 25\n");
        entry(what, line.as_bytes(), span);
    }
    println!("(times the library's); asking for the next reads the one-line table for each firing");
}

fn entry(what: &str, table: &[u8], [a, b]: [u64; 2]) {
    let entry = &read(table, Kind::User).expect("a good table").entries[0];
    let (expected, slow) = once(|| {
        let firings = entry.firings(a, b);
        firings.map(|minute| minute as u32).collect::<Vec<u32>>()
    });
    let count = expected.len();
    let run = RefCell::new(vec![0; count]);
    let list = || {
        let filled = Table::of(table).firings(0, [a, b], &mut run.borrow_mut()[..]);
        assert_eq!(filled.map(|filled| filled.count), Ok(count as u64));
    };
    list();
    assert!(
        *run.borrow() == expected,
        "the library lists something else"
    );
    let by_next = || {
        let mut minute = a;
        for place in run.borrow_mut().iter_mut() {
            minute = Table::of(table).next(0, minute).expect("a firing");
            *place = minute as u32;
        }
    };
    by_next();
    assert!(
        *run.borrow() == expected,
        "asking for the next lists something else"
    );
    let times = in_turn(&[&|| round(&[()], |()| list()), &|| {
        round(&[()], |()| by_next())
    }]);
    let each = |time: f64| time / count as f64;
    print_row(
        &format!("{what} ({count})"),
        each(times[0]),
        &[each(times[1]), each(slow)],
    );
}
