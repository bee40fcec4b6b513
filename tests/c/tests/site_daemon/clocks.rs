//! Clocks from a file: every minute, waking late, and jumps each way.

use crate::log::{Daemon, Shown};
use crate::{log_of, write, Site};
use c::{complaint, root, run, told, word};
use reference::calendar::{minute_of, LAST_MINUTE};
use reference::random::Random;
use reference::table::{read, Dialect, Kind, Rules};

/// 2026-11-15 21:00, a Sunday.
fn evening() -> u64 {
    minute_of(2026, 11, 15, 21, 0).expect("a date")
}

/// Runs the daemon over a clock, and compares its log.
fn compare(site: &Site, table: &[u8], rules: Rules, pace: u64, clock: &[Shown]) {
    let (file, pace_word) = (site.table(table), pace.to_string());
    let mut options = vec!["-j", &pace_word];
    options.extend((rules.kind == Kind::System).then_some("-s"));
    options.extend((rules.dialect == Dialect::Wrapping).then_some("-w"));
    let text = log_of(site, &options, &file, clock);
    let mut daemon = Daemon::start(read(table, rules).expect("good"), pace, clock[0]);
    for &shown in &clock[1..] {
        daemon.shown(shown);
    }
    let shown = table.escape_ascii();
    assert_eq!(text.lines().collect::<Vec<&str>>(), daemon.end(), "{shown}");
}

/// Minutes alone.
fn minutes(minutes: impl IntoIterator<Item = u64>) -> Vec<Shown> {
    minutes.into_iter().map(Shown::Minute).collect()
}

const TABLE: &[u8] =
    b"A=b\n@reboot boot%in\n*/7 * * * * seven\nC='d e'\n* * * * * each\n30 21 * * * fixed\n";
const RARE: &[u8] = b"# rare\n30 21 * * * fixed\n12,13,50 * * * * some\n@reboot boot\n";

#[test]
fn every_minute() {
    let site = Site::new("site-minutes");
    let minutes = minutes(evening()..evening() + 100);
    for table in [TABLE, RARE, b"", b"A=b\n", b"0 0 30 2 * never\n"] {
        for pace in [1, 2, 600] {
            compare(&site, table, Kind::User.into(), pace, &minutes);
        }
    }
}

/// It wakes late by some minutes, and announces what it slept through; or by so many that it is a jump.
#[test]
fn waking_late_and_jumps() {
    let site = Site::new("site-jumps");
    let rows: [&[u64]; 8] = [
        &[20, 21, 26, 40, 41, 56, 57],
        &[20, 21, 36, 37, 53, 54],
        // Two hours on, and back.
        &[20, 21, 142, 143, 24, 25, 30, 31],
        &[29, 30, 31, 28, 29, 30, 31, 32],
        // Three hours and more.
        &[20, 300, 301, 100, 101],
        &[31, 30, 31, 211, 30, 31],
        // A day later; a year earlier.
        &[10, 1_450, 1_451, 1_460],
        &[0, 0, 0, 1, 1, 5, 5],
    ];
    for row in rows {
        let clock = minutes(row.iter().map(|minute| evening() + minute));
        for table in [TABLE, RARE] {
            for pace in [1, 3] {
                compare(&site, table, Kind::User.into(), pace, &clock);
            }
        }
    }
    let woken = [0, 1, 2, 3, evening(), evening() + 1, evening() + 2, 7, 8];
    compare(&site, TABLE, Kind::User.into(), 1, &minutes(woken));
}

/// A clock off the calendar is told, and once it is right again all goes on.
#[test]
fn the_end_of_the_calendar() {
    let site = Site::new("site-calendar");
    let clock = minutes([LAST_MINUTE - 1, LAST_MINUTE, LAST_MINUTE + 1, 1 << 40, 7]);
    let text = log_of(&site, &[], &site.table("* * * * * a\n"), &clock);
    let refused =
        "queue_tick: refused 14: no such minute or date from 1970-01-01 00:00 to 9999-12-31 23:59";
    let lines = [
        "9999-12-31 Fri 23:58  start: 0 wait".to_string(),
        "9999-12-31 Fri 23:58  line 1 after 0 min: |a|".to_string(),
        "9999-12-31 Fri 23:59  line 1 after 0 min: |a|".to_string(),
        format!("off the calendar  {refused}"),
        format!(
            "off the calendar  the clock jumped by {} min",
            (1 << 40) - LAST_MINUTE - 1
        ),
        format!("off the calendar  {refused}"),
        format!(
            "1970-01-01 Thu 00:07  the clock jumped by {} min",
            7 - (1i64 << 40)
        ),
        "1970-01-01 Thu 00:07  line 1 after 0 min: |a|".to_string(),
        "1970-01-01 Thu 00:07  end: 0 wait".to_string(),
    ];
    let found: Vec<&str> = text.lines().collect();
    assert_eq!(found, lines);
}

#[test]
fn the_examples_tables() {
    let site = Site::new("site-examples");
    let minutes = minutes(evening()..evening() + 60);
    for (name, rules) in [
        ("observatory", Rules::of(Kind::User, Dialect::Rising)),
        ("system", Rules::of(Kind::System, Dialect::Rising)),
        ("two_sites", Rules::of(Kind::User, Dialect::Rising)),
        ("over_midnight", Rules::of(Kind::User, Dialect::Wrapping)),
    ] {
        let path = root().join(format!("examples/{name}.crontab"));
        let table = std::fs::read(path).expect("the crontab");
        compare(&site, &table, rules, 1, &minutes);
    }
}

/// Any clock at all, by minutes.
#[test]
fn random_minutes() {
    let site = Site::new("site-random");
    let mut random = Random::seeded();
    for _ in 0..60 {
        let mut minute = evening() + random.below(1_440);
        let mut clock = vec![Shown::Minute(minute)];
        for _ in 0..80 {
            let far = random.pick(&[1, 1, 1, 2, 4, 5, 6, 14, 15, 16, 120, 180, 181, 2_000]);
            minute = match random.below(6) {
                0 => minute.saturating_sub(far),
                1 => minute,
                _ => minute + far,
            };
            clock.push(Shown::Minute(minute));
        }
        let (table, pace) = (random.pick(&[TABLE, RARE]), 1 + random.below(3));
        compare(&site, table, Kind::User.into(), pace, &clock);
    }
}

/// Any two clocks: the steady one goes on by some seconds, and the other with it, or it is set.
#[test]
fn random_seconds() {
    let site = Site::new("site-seconds");
    let mut random = Random::seeded();
    for _ in 0..60 {
        let (mut wall, mut steady) = (60 * evening() + random.below(86_400), random.below(9_999));
        let mut clock = vec![Shown::Seconds(wall, steady)];
        for _ in 0..200 {
            let passed = random.pick(&[0, 1, 7, 29, 30, 31, 59, 60, 61, 200, 899, 960, 12_345]);
            let far = random.pick(&[
                1, 10, 59, 60, 61, 119, 3_600, 10_740, 10_800, 10_860, 99_999,
            ]);
            (wall, steady) = (wall + passed, steady + passed);
            wall = match random.below(12) {
                0 => wall - far,
                1 => wall + far,
                _ => wall,
            };
            clock.push(Shown::Seconds(wall, steady));
        }
        let (table, pace) = (random.pick(&[TABLE, RARE]), 1 + random.below(3));
        compare(&site, table, Kind::User.into(), pace, &clock);
    }
}

#[test]
fn wrong_arguments_and_tables() {
    let site = Site::new("site-arguments");
    let good = site.table("@daily a\n");
    let clock = site.path("clock");
    write(&clock, "7\n");
    let rows: [&[&str]; 8] = [
        &[],
        &["-c", word(&clock)],
        &["-x", &good],
        &["-j", &good],
        &["-j", "0", &good],
        &["-j", "x", &good],
        &["-c", "/nowhere", &good],
        &[&good, &good],
    ];
    for row in rows {
        let output = run(&site.program, row);
        assert_eq!(told(&output), (String::new(), Some(2)), "{row:?}");
        assert!(complaint(&output).contains("usage: site_daemon"), "{row:?}");
    }
    let bad = site.table("# one\n0 0 * * mon/2 b\n");
    let output = run(&site.program, &["-c", word(&clock), &bad]);
    assert_eq!(told(&output), (String::new(), Some(1)));
    assert!(complaint(&output).starts_with(&format!("{bad}:2:9: refused 5: ")));
    let output = run(&site.program, &["-c", word(&clock), "/nowhere"]);
    assert_eq!(told(&output), (String::new(), Some(2)));
}
