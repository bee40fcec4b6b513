//! The next firing of each entry, its command and what that reads are the reference program's.

use super::explained;
use c::shown::{job, minute_text, text, typed};
use c::Subcommand;
use reference::calendar::LAST_MINUTE;
use reference::command::split;
use reference::random::Random;
use reference::table::{read, samples, Entry, Kind, Table, When};

/// The line that tells the first firing from a minute on, or why there is none.
fn told_of(entry: &Entry, from: u64) -> Option<String> {
    if entry.when == When::Reboot {
        return None;
    }
    let first = match entry.matches(from) {
        true => Ok(from),
        false => entry.next_after(from),
    };
    Some(match first {
        Ok(minute) => format!("next {}", minute_text(minute)),
        Err(16) => "never fires".to_string(),
        Err(17) => "fires no more before the year 10000".to_string(),
        Err(other) => panic!("refused {other}"),
    })
}

/// The lines that tell the command, and what it reads.
fn runs(table: &Table, entry: &Entry) -> Vec<String> {
    let mut lines = vec![job(table, entry)];
    if let Some(input) = split(entry.command).input {
        let read = input.split(|&byte| byte == b'\n');
        lines.extend(read.map(|line| match line {
            [] => "<".to_string(),
            line => format!("< {}", text(line)),
        }));
    }
    lines
}

#[test]
fn next_firings_and_jobs_are_the_second_program_s() {
    let explain = Subcommand::new("explain", "explain-next");
    let mut random = Random::seeded();
    for round in 0..60 {
        let from = match round {
            0 => 0,
            1 => 1,
            2 => LAST_MINUTE,
            3 => LAST_MINUTE - 1,
            _ => random.below(LAST_MINUTE + 1),
        };
        let table = samples::table(&mut random, Kind::User, 60);
        let read = read(&table, Kind::User).expect("a good table");
        let typed = typed(from);
        let found = explained(&explain, &["--from", &typed], &table);
        assert_eq!(found.len(), read.entries.len());
        for (entry, (first, below)) in read.entries.iter().zip(&found) {
            let next = told_of(entry, from);
            let runs = runs(&read, entry);
            assert_eq!(below.len(), next.iter().count() + runs.len(), "{first}");
            assert!(below.ends_with(&runs), "{below:?}\nnot\n{runs:?}");
            if let Some(next) = next {
                let (utc, _) = below[0]
                    .split_once(", by its clock ")
                    .unwrap_or((&below[0], ""));
                assert_eq!(utc, next, "{first} from {typed}");
            }
        }
    }
}

/// By the entry's own clock, which shows a later date.
#[test]
fn the_first_and_the_last_minute_are_dates_to_start_from() {
    let explain = Subcommand::new("explain", "explain-ends");
    let table = b"* * * * * a\nCRON_TZ=-00:01\n* * * * * b\n";
    let first = explained(&explain, &["--from=1970-01-01"], table);
    assert_eq!(first[0].1[0], "next 1970-01-01 Thu 00:00");
    assert_eq!(
        first[1].1[0],
        "next 1970-01-01 Thu 00:01, by its clock 1970-01-01 Thu 00:00"
    );
    let last = explained(&explain, &["--from", "9999-12-31T23:59"], table);
    assert_eq!(last[0].1[0], "next 9999-12-31 Fri 23:59");
    assert_eq!(
        last[1].1[0],
        "next 9999-12-31 Fri 23:59, by its clock 9999-12-31 Fri 23:58"
    );
}

/// Without a date the next firing comes after the minute that the clock shows.
#[test]
fn without_a_date_it_is_now() {
    let explain = Subcommand::new("explain", "explain-now");
    let now = || {
        let time = std::time::SystemTime::now().duration_since(std::time::UNIX_EPOCH);
        time.expect("a time after 1970").as_secs() / 60
    };
    let before = now();
    let found = explained(&explain, &[], b"* * * * * a\n");
    let after = now();
    let expected: Vec<String> = (before + 1..=after + 1)
        .map(|minute| format!("next {}", minute_text(minute)))
        .collect();
    assert!(expected.contains(&found[0].1[0]), "{found:?}");
}
