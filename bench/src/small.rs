//! One question to a small table, which is read for it. The next firing of a one-line table, beside the search alone: the
//! same entry's schedule, with no bytes to read. A setting, beside the reference program.

use crate::measure::{in_turn, print_pair, print_pair_head, round};
use eremothyn::Table;
use reference::table::calls::Calls;
use reference::table::samples::schedule_of;
use reference::table::Kind;
use test_calls::schedules;

const FIELDS: [&str; 5] = [
    "0 0 29 2 *",
    "0 0 29 2 */7",
    "0 0 13 * 5",
    "0 22 * * 1-5",
    "*/5 * * * *",
];

/// A small table, and the line of a setting in it.
const SETTINGS: [(&str, &[u8], u64); 2] = [
    ("the only line", b"SHELL=/bin/sh\n", 1),
    (
        "before two entries",
        b"SHELL=/bin/sh\nMAILTO = \"duty office\"\n*/5 * * * * dome check\n@daily rotate\n",
        2,
    ),
];

const QUESTIONS: u64 = 1_000;

pub fn run() {
    let starts: Vec<u64> = (0..QUESTIONS).map(|n| n * 100_000).collect();
    let title = "small, the next firing of a one-line table, ns each";
    print_pair_head(title, "search alone");
    for fields in FIELDS {
        next(fields, &starts);
    }
    println!(
        "times as long as the search alone; the goals of both stand at the minute walk (schedule)"
    );

    let title = "small, a setting's name and value, four calls, ns for all";
    print_pair_head(title, "reference program");
    for (what, table, line) in SETTINGS {
        setting(what, table, line);
    }
    println!("times as long as the reference program, which reads the table once");
}

fn next(fields: &str, starts: &[u64]) {
    let line = format!("{fields} /usr/local/bin/dome check --wind 25\n");
    let numbers = schedule_of(fields).numbers();
    let by_bytes = |start: u64| Table::of(line.as_bytes()).next(0, start);
    let alone = |start: u64| schedules::next_after(numbers, start);
    for &start in starts {
        assert_eq!(by_bytes(start), alone(start), "{fields} after {start}");
    }
    let times = in_turn(&[&|| round(starts, by_bytes), &|| round(starts, alone)]);
    print_pair(fields, [times[0], times[1]], times[0] / times[1]);
}

fn setting(what: &str, table: &[u8], line: u64) {
    let library = |line: u64| Table::of(table).setting(line);
    let second = |line: u64| {
        Calls::of(table, Kind::User)
            .setting(line)
            .expect("a setting")
    };
    let parts = second(line);
    let expected = [
        parts.name.offset,
        parts.name.length,
        parts.value.offset,
        parts.value.length,
    ];
    assert_eq!(library(line), expected.map(|part| Ok(part as u64)));
    let lines = vec![line; QUESTIONS as usize];
    let times = in_turn(&[&|| round(&lines, library), &|| round(&lines, second)]);
    print_pair(what, [times[0], times[1]], times[0] / times[1]);
}
