//! What is queued after a reload, by rows. `~` is a system table's user.

use crate::{enough, line};
use differential::queue::Case;
use differential::samples::of_kind;
use reference::calendar::LAST_MINUTE;
use reference::table::{Dialect, Kind, Rules};

/// The old table, the new one, who waits before and who after.
type Row<'a> = (&'a str, &'a str, &'a [u64], &'a [u64]);

const MARKS: [Option<u64>; 4] = [None, Some(0), Some(29_911_830), Some(LAST_MINUTE)];

fn rows_under(rules: Rules, rows: &[Row]) {
    for &(old, new, before, after) in rows {
        let [old_table, new_table] = [old, new].map(|text| of_kind(text, rules));
        let [old, new] = [&old_table, &new_table].map(|text| Case::under(text.as_bytes(), rules));
        for mark in MARKS {
            let room = enough(&old, &new);
            let mut line = line(before, mark, room);
            let answer = line.reload(&old, &new, room);
            let shown = format!("{old_table:?}, {new_table:?}, {before:?}");
            assert_eq!(answer, Ok(after.len() as u64), "{shown}");
            assert_eq!(line.queue.waiting, after, "{shown}");
            assert_eq!(line.queue.mark, mark, "{shown}");
            line.assert_waiting(&new);
        }
    }
}

fn rows(rows: &[Row]) {
    for rules in Rules::ALL {
        rows_under(rules, rows);
    }
}

const JOBS: &str = "0 1 * * * ~backup\n0 2 * * * ~wipe\n@hourly ~look\n";

#[test]
fn entries_that_moved() {
    rows(&[
        // A waiting backup stays a backup.
        (
            JOBS,
            "0 2 * * * ~wipe\n0 1 * * * ~backup\n@hourly ~look\n",
            &[0],
            &[1],
        ),
        (
            JOBS,
            "0 2 * * * ~wipe\n0 1 * * * ~backup\n@hourly ~look\n",
            &[1, 2, 0],
            &[0, 2, 1],
        ),
        (
            JOBS,
            "@daily ~new\n0 1 * * * ~backup\n0 2 * * * ~wipe\n",
            &[1, 0],
            &[2, 1],
        ),
        (JOBS, JOBS, &[2, 0, 1], &[2, 0, 1]),
        (JOBS, JOBS, &[], &[]),
        // Comments and settings are no part of it.
        (
            JOBS,
            "# a\nA=b\n0 1 * * * ~backup\n\nC=d\n0 2 * * * ~wipe\n",
            &[1, 0],
            &[1, 0],
        ),
    ]);
}

#[test]
fn entries_that_are_gone() {
    rows(&[
        (JOBS, "0 2 * * * ~wipe\n", &[0, 1, 2], &[0]),
        (JOBS, "0 2 * * * ~wipe\n", &[0, 2], &[]),
        (JOBS, "", &[2, 1, 0], &[]),
        ("", JOBS, &[], &[]),
        // Another command, blanks at its end among them; another minute, hour, day, month, weekday.
        (
            JOBS,
            "0 1 * * * ~back up\n0 2 * * * ~wipe \n@hourly ~look\n",
            &[0, 1, 2],
            &[2],
        ),
        (
            JOBS,
            "1 1 * * * ~backup\n0 3 * * * ~wipe\n@daily ~look\n",
            &[0, 1, 2],
            &[],
        ),
        (
            "0 1 2 3 4 ~a\n",
            "0 1 2,3 3 4 ~a\n0 1 2 3-4 4 ~a\n0 1 2 3 4,5 ~a\n",
            &[0],
            &[],
        ),
    ]);
}

#[test]
fn entries_that_are_written_otherwise() {
    rows(&[
        ("0 0 * * * ~a\n", "@daily ~a\n", &[0], &[0]),
        ("@midnight ~a\n", " \t0  0\t*/1 * * ~a\n", &[0], &[0]),
        (
            "5,0-2,1 3 4 jan mon ~a\n",
            "0-2,5 03 4 1 1 ~a\n",
            &[0],
            &[0],
        ),
        ("*/5 * * * * ~a\n", "*/05 * * * * \t ~a\n", &[0], &[0]),
        ("@hourly ~a%b\\%c\n", "0 * * * * ~a%b\\%c\n", &[0], &[0]),
        // The same command split, but not the same bytes.
        ("@hourly ~a%b\n", "@hourly ~a%b%\n", &[0], &[]),
    ]);
    let rising = Rules::from(Dialect::Rising);
    rows_under(rising, &[("0 0 * * 0 ~a\n", "0 0 * * 7 ~a\n", &[0], &[0])]);
    let wrapping = Rules::from(Dialect::Wrapping);
    rows_under(
        wrapping,
        &[("0 22-3 * * * ~a\n", "0 0-3,22,23 * * * ~a\n", &[0], &[0])],
    );
}

/// The same values: that a field begins with a star is a part of what it means, in each of the five.
#[test]
fn stars() {
    rows(&[
        ("* 1 1 1 1 ~a\n", "0-59 1 1 1 1 ~a\n", &[0], &[]),
        ("1 * 1 1 1 ~a\n", "1 0-23 1 1 1 ~a\n", &[0], &[]),
        ("1 1 * 1 1 ~a\n", "1 1 1-31 1 1 ~a\n", &[0], &[]),
        ("1 1 1 * 1 ~a\n", "1 1 1 1-12 1 ~a\n", &[0], &[]),
        ("1 1 1 1 * ~a\n", "1 1 1 1 0-6 ~a\n", &[0], &[]),
        ("*/30 1 1 1 1 ~a\n", "0,30 1 1 1 1 ~a\n", &[0], &[]),
        (
            "0-59 1 1 1 1 ~a\n",
            "* 1 1 1 1 ~a\n0-59 1 1 1 1 ~a\n",
            &[0],
            &[1],
        ),
    ]);
}

#[test]
fn several_that_mean_the_same() {
    const TWO: &str = "@hourly ~a\n@hourly ~a\n";
    const THREE: &str = "@hourly ~a\n0 * * * * ~a\n@hourly ~a\n";
    rows(&[
        (TWO, TWO, &[1], &[1]),
        (
            TWO,
            "@daily ~b\n@hourly ~a\n0 * * * * ~a\n",
            &[1, 0],
            &[2, 1],
        ),
        (TWO, "@hourly ~a\n@daily ~b\n@hourly ~a\n", &[1], &[2]),
        (TWO, "@hourly ~a\n", &[1, 0], &[0]),
        (TWO, "@hourly ~a\n", &[0, 1], &[0]),
        (TWO, THREE, &[1], &[1]),
        // There are fewer: the last one, and each once.
        (TWO, "@hourly ~a\n", &[1], &[0]),
        (TWO, "@hourly ~b\n@hourly ~a\n", &[1], &[1]),
        (THREE, TWO, &[2, 1, 0], &[1, 0]),
        (THREE, TWO, &[0, 1, 2], &[0, 1]),
        (THREE, TWO, &[2], &[1]),
        (THREE, "@hourly ~a\n", &[2, 0, 1], &[0]),
        (
            "@hourly ~a\n@hourly ~b\n@hourly ~a\n@hourly ~b\n",
            "@hourly ~b\n@hourly ~a\n",
            &[3, 2, 1, 0],
            &[0, 1],
        ),
        (
            THREE,
            "@reboot ~a\n@hourly ~a\n@hourly ~b\n@hourly ~a\n",
            &[2, 0, 1],
            &[3, 1],
        ),
    ]);
}

#[test]
fn clocks() {
    rows(&[
        ("@daily ~a\n", "CRON_TZ=+01:00\n@daily ~a\n", &[0], &[]),
        ("@daily ~a\n", "CRON_TZ=+00:00\n@daily ~a\n", &[0], &[0]),
        ("CRON_TZ=-00:00\n@daily ~a\n", "@daily ~a\n", &[0], &[0]),
        (
            "CRON_TZ=-01:00\n@daily ~a\n",
            "CRON_TZ=+01:00\n@daily ~a\n",
            &[0],
            &[],
        ),
        // The setting stands behind it now.
        (
            "CRON_TZ=-01:00\n@daily ~a\n",
            "@daily ~a\nCRON_TZ=-01:00\n",
            &[0],
            &[],
        ),
        (
            "@daily ~a\nCRON_TZ=-01:00\n@daily ~a\n",
            "CRON_TZ=-01:00\n@daily ~a\nCRON_TZ=+00:00\n@daily ~a\n",
            &[0, 1],
            &[1, 0],
        ),
        // The same minutes in UTC, but not the same clock.
        (
            "0 1 * * * ~a\n",
            "CRON_TZ=+01:00\n0 2 * * * ~a\n",
            &[0],
            &[],
        ),
        // Boot jobs have no clock.
        ("@reboot ~a\n", "CRON_TZ=+01:00\n@reboot ~a\n", &[0], &[0]),
        (
            "CRON_TZ=-01:00\n@reboot ~a\n",
            "CRON_TZ=+01:00\n@reboot ~a\n",
            &[0],
            &[0],
        ),
        (
            "@reboot ~a\nCRON_TZ=-01:00\n@reboot ~a\n",
            "@reboot ~a\n",
            &[1, 0],
            &[0],
        ),
    ]);
}

#[test]
fn boot_jobs() {
    rows(&[
        (
            "@reboot ~a\n@reboot ~b\n",
            "@reboot ~c\n@reboot ~b\n",
            &[0, 1],
            &[1],
        ),
        // Nobody joins.
        ("@reboot ~a\n", "@reboot ~a\n@reboot ~b\n", &[], &[]),
        ("", "@reboot ~a\n", &[], &[]),
        ("@reboot ~a\n", "@daily ~a\n", &[0], &[]),
        ("@daily ~a\n", "@reboot ~a\n", &[0], &[]),
        (
            "@reboot ~a\n@daily ~b\n",
            "@daily ~b\n@reboot ~a\n",
            &[0, 1],
            &[1, 0],
        ),
    ]);
}

#[test]
fn users() {
    const OLD: &str = "@daily u a\n@daily u:g a\n@daily u/c a\n@daily u:g/c a\n";
    let rules = Rules::from(Kind::System);
    rows_under(
        rules,
        &[
            (OLD, OLD, &[3, 1, 0, 2], &[3, 1, 0, 2]),
            (
                OLD,
                "@daily u:g/c a\n@daily u:c a\n@daily u/g a\n@daily v a\n",
                &[0, 1, 2, 3],
                &[0],
            ),
            (OLD, "@daily  u/c\ta\n@daily u a\n", &[0, 1, 2, 3], &[1, 0]),
            // The same bytes, cut otherwise.
            ("@daily a:b c\n", "@daily a b c\n", &[0], &[]),
            ("@daily u:g a\n", "@daily u:h a\n", &[0], &[]),
        ],
    );
    // In a user table they are a part of the command.
    let rules = Rules::from(Kind::User);
    rows_under(rules, &[(OLD, "@daily v a\n@daily u a\n", &[1, 0], &[1])]);
}
