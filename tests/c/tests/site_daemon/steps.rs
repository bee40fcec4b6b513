//! The clock is set while the daemon sleeps, at any second: no job with a set time is lost, and none comes twice.

use crate::log::Shown;
use crate::{log_of, Site};
use reference::calendar::minute_of;

/// 2026-11-15 12:00.
fn noon() -> i64 {
    minute_of(2026, 11, 15, 12, 0).expect("a date") as i64
}

/// Which minutes from noon have a job with that set time: those near noon and three hours later, and some others.
fn has_job(minute: i64) -> bool {
    (-2..8).contains(&minute) || (178..190).contains(&minute) || minute % 20 == 0
}

/// A table of such jobs, from 08:00 to 16:29.
fn jobs() -> String {
    let minutes = (480..990).filter(|minute| has_job(minute - 720));
    let job = |minute: i64| format!("{} {} * * * j{minute}\n", minute % 60, minute / 60);
    minutes.map(job).collect()
}

/// The names of the jobs of minutes from noon.
fn names(minutes: impl Iterator<Item = i64>) -> Vec<String> {
    let minutes = minutes.filter(|&minute| has_job(minute));
    minutes.map(|minute| format!("j{}", 720 + minute)).collect()
}

/// Both clocks at each second of some minutes, from a second of noon's minute on; after so many seconds the clock is set. At
/// last it shows the next minute, by which the daemon is awake; that comes too, counted from noon.
fn clock(start: i64, minutes: i64, set_after: i64, by: i64) -> (Vec<Shown>, i64) {
    let wall = |steady: i64| start + steady + if steady >= set_after { by } else { 0 };
    let at = |steady| Shown::Seconds((60 * noon() + wall(steady)) as u64, steady as u64);
    let mut clock: Vec<Shown> = (0..=60 * minutes).map(at).collect();
    let last = wall(60 * minutes).div_euclid(60) + 1;
    clock.push(Shown::Minute((noon() + last) as u64));
    (clock, last)
}

/// The jobs that the daemon started, in order, as many at once as there were.
fn started(site: &Site, table: &str, clock: &[Shown]) -> Vec<String> {
    let log = log_of(site, &["-j", "600"], table, clock);
    let lines = log.lines().filter(|line| line.contains("  line "));
    let jobs = lines.filter_map(|line| line.split('|').nth(1));
    jobs.map(str::to_string).collect()
}

/// At any second of two sleeps, of a daemon that started at any sort of second: each job of all those hours once, in order.
#[test]
fn a_step_forward_loses_no_job() {
    let site = Site::new("site-forward");
    let table = site.table(jobs());
    for (start, by) in [(0, 179), (1, 179), (30, 180), (59, 179), (59, 180)] {
        for set_after in 1..=121 {
            let (clock, last) = clock(start, 3, set_after, 60 * by);
            let found = started(&site, &table, &clock);
            assert_eq!(found, names(0..=last), "{start} {by} {set_after}");
        }
    }
}

/// More than three hours are a new clock: the jobs in between aren't caught up.
#[test]
fn a_longer_step_is_a_new_clock() {
    let site = Site::new("site-new-clock");
    let table = site.table(jobs());
    let (clock, last) = clock(59, 3, 30, 60 * 181);
    let found = started(&site, &table, &clock);
    assert_eq!(found, names((0..=2).chain(183..=last)));
}

/// Back, and on for as long as it was set back: each job once, and the job of every minute again.
#[test]
fn a_step_back_repeats_no_job() {
    let site = Site::new("site-back");
    let seconds = |by: i64| match by {
        1 => (1..=121).collect(),
        _ => vec![1, 29, 30, 31, 90, 119],
    };
    for by in [1, 2, 179] {
        for set_after in seconds(by) {
            let (clock, last) = clock(30, 4 + by, set_after, -60 * by);
            let found = started(&site, &site.table(jobs()), &clock);
            assert_eq!(found, names(0..=last), "{by} {set_after}");
            let found = started(&site, &site.table("* * * * * each\n"), &clock);
            // The minute of the step comes as it passed, and as the clock shows it.
            assert_eq!(found.len() as i64, last + by + 2, "{by} {set_after}");
        }
    }
}

/// Nothing is announced twice while nobody sets the clock, and where it is set by less than a minute.
#[test]
fn no_minute_comes_twice() {
    let site = Site::new("site-once");
    let table = site.table("* * * * * each\n");
    for by in [-59, -30, -1, 0, 1, 30, 59] {
        for set_after in 1..=121 {
            let (clock, last) = clock(20, 4, set_after, by);
            let found = started(&site, &table, &clock).len() as i64;
            assert_eq!(found, last + 1, "{by} {set_after}");
        }
    }
}

/// The machine is suspended for four hours, and the clock is set, too: each job with a set time comes once, and the job of every
/// minute for the last 15 minutes.
#[test]
fn suspended_and_set() {
    let site = Site::new("site-suspended");
    let table = site.table(jobs());
    let at = |wall: i64, steady: i64| Shown::Seconds((60 * noon() + wall) as u64, steady as u64);
    for by in [0, 1, 29] {
        let clock = [at(0, 0), at(14_400 + 60 * by, 14_400)];
        assert_eq!(started(&site, &table, &clock), names(0..=240 + by));
    }
    let table = site.table("* * * * * each\n");
    let clock = [at(0, 0), at(14_400, 14_400)];
    assert_eq!(started(&site, &table, &clock).len(), 1 + 15);
}
