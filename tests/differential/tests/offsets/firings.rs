//! Whether an entry is due, and when it fires next.

use crate::{ends, minutes};
use differential::samples::{any_rules, numbers, of_kind};
use differential::table::Compared;
use eremothyn::Answer;
use reference::calendar::LAST_MINUTE;
use reference::random::Random;
use reference::schedule::samples::start;
use reference::table::offset::known::{DUE, NEXT, SEVERAL, SEVERAL_NEXT};
use reference::table::offset::samples::{line, offset, OFFSETS};
use reference::table::offset::{text, EAST, WEST};
use reference::table::{samples, Kind, Rules};
use test_calls::schedules;

/// Runs a test with a table of either kind: `~` is a system table's user.
fn in_both_kinds(table: &str, test: impl Fn(&Compared)) {
    for kind in Kind::BOTH {
        let table = of_kind(table, kind);
        test(&Compared::under(table.as_bytes(), kind));
    }
}

#[test]
fn by_hand() {
    for (value, fields, minute, expected) in NEXT {
        in_both_kinds(&format!("CRON_TZ={value}\n{fields} ~a\n"), |table| {
            assert_eq!(table.next(0, minute), expected, "{value} {fields} {minute}");
        });
    }
    for (value, fields, minute, expected) in DUE {
        in_both_kinds(&format!("CRON_TZ={value}\n{fields} ~a\n"), |table| {
            assert_eq!(table.due(0, minute), expected, "{value} {fields} {minute}");
        });
    }
    in_both_kinds(SEVERAL, |table| {
        let found = [0, 1, 2, 3, 4, 5, 6, 7].map(|entry| table.next(entry, 0));
        assert_eq!(found, SEVERAL_NEXT);
        table.everything(&mut Random::new(9));
    });
}

/// Every offset at the ends, beside them and between, with every minute about the calendars' ends: an entry of every minute
/// is due where its clock is on the calendar.
#[test]
fn every_offset_with_every_minute() {
    for offset in OFFSETS {
        let table = format!("CRON_TZ={}\n* * * * * ~a\n", text(offset));
        in_both_kinds(&table, |table| {
            for minute in minutes() {
                fires_every_minute(table, 0, offset, minute);
            }
        });
    }
}

/// Compares when an entry of every minute is due and fires next.
fn fires_every_minute(table: &Compared, entry: u64, offset: i64, minute: u64) {
    let found = [table.due(entry, minute), table.next(entry, minute)];
    let expected = [due(offset, minute), next(offset, minute)];
    assert_eq!(found, expected, "{offset} {minute}");
}

fn due(offset: i64, minute: u64) -> Answer {
    let [first, last] = ends(offset);
    match minute {
        0..=LAST_MINUTE => Ok((first..=last).contains(&minute).into()),
        _ => Err(14),
    }
}

fn next(offset: i64, minute: u64) -> Answer {
    let [first, last] = ends(offset);
    match minute {
        0..=LAST_MINUTE if minute < last => Ok(first.max(minute + 1)),
        0..=LAST_MINUTE => Err(17),
        _ => Err(14),
    }
}

/// Entries of all sorts at the same places.
#[test]
fn entries_of_all_sorts_with_every_minute() {
    let entries = [
        "0 0 * * *",
        "0 0 1 1 *",
        "59 23 31 12 *",
        "59 23 * * *",
        "0 12 31 12 *",
        "* 10-14 1,31 1,12 *",
        "0 0 29 2 *",
        "0 0 30 2 *",
        "*/7 */5 * * 4,5",
        "0 0 29 2 */7",
        "@reboot",
        "@hourly",
        "@yearly",
    ];
    for offset in OFFSETS {
        let lines = entries.map(|time| format!("{time} a\n")).concat();
        let table = format!("CRON_TZ={}\n{lines}", text(offset));
        let compared = Compared::of(table.as_bytes());
        for entry in 0..entries.len() as u64 {
            for minute in minutes() {
                let _ = compared.due(entry, minute);
                let _ = compared.next(entry, minute);
            }
        }
    }
}

/// All offsets there are, each where its clock starts and ends.
#[test]
fn all_offsets_at_their_ends() {
    for offset in WEST..=EAST {
        let table = format!("CRON_TZ={}\n* * * * * a\n", text(offset));
        let table = Compared::of(table.as_bytes());
        for end in ends(offset) {
            for minute in end.saturating_sub(1)..=end + 1 {
                fires_every_minute(&table, 0, offset, minute);
            }
        }
    }
}

/// Firings by a local clock are those in UTC, moved by the offset, as long as both are on the calendar.
#[test]
fn a_clock_moves_firings() {
    let mut random = Random::seeded();
    for _ in 0..20_000 {
        let fields = samples::fields(&mut random).join(" ");
        let offset = offset(&mut random);
        let table = format!("{fields} a\nCRON_TZ={}\n{fields} b\n", text(offset));
        let table = Compared::of(table.as_bytes());
        let minute = start(&mut random);
        let [utc, local] = [(0, minute.checked_add_signed(offset)), (1, Some(minute))]
            .map(|(entry, minute)| minute.map(|minute| table.next(entry, minute)));
        if let (Some(Ok(utc)), Some(Ok(local))) = (utc, local) {
            assert_eq!(Some(utc), local.checked_add_signed(offset), "{fields}");
            assert_eq!(table.due(1, local), Ok(1));
        }
    }
}

/// The slow engine of ticket 2026-07 answers the same as a table's entry, refusals included. It walks from minute 0 to the first
/// match, and then from the minute to the firing: of both only short ways are asked for.
#[test]
fn entries_fire_as_by_the_slow_engine() {
    const NEAR: u64 = 100_000;
    let mut random = Random::seeded();
    let mut asked = 0;
    while asked < 500 {
        let fields = samples::fields(&mut random).join(" ");
        let schedule = samples::schedule_of(&fields);
        let offset = offset(&mut random);
        let minute = start(&mut random);
        let early = schedule.next_after(0).is_ok_and(|first| first <= NEAR);
        let near = match schedule.next_under(offset, minute) {
            Ok(firing) => firing - minute <= NEAR,
            Err(_) => LAST_MINUTE - NEAR <= minute,
        };
        if early && near {
            let table = format!("CRON_TZ={}\n{fields} a\n", text(offset));
            let found = Compared::of(table.as_bytes()).next(0, minute);
            let slow = schedules::next_by_clock(schedule.numbers(), offset, minute);
            assert_eq!(found, slow, "{table} after {minute}");
            asked += 1;
        }
    }
}

/// An entry has the last offset before it, however that is written.
#[test]
fn the_last_offset_before_an_entry_counts() {
    let mut random = Random::seeded();
    for _ in 0..2_000 {
        let rules = any_rules(&mut random);
        let (table, offsets) = with_offsets(&mut random, rules);
        let compared = Compared::under(table.as_bytes(), numbers(&mut random, rules));
        assert_eq!(compared.check(), Ok(offsets.len() as u64), "{table}");
        for (entry, &offset) in (0..).zip(&offsets) {
            for end in ends(offset) {
                let minute = (end + random.below(3)).saturating_sub(1);
                fires_every_minute(&compared, entry, offset, minute);
            }
        }
    }
}

/// A table with many offsets and entries of every minute, and the offset of each of them.
fn with_offsets(random: &mut Random, rules: Rules) -> (String, Vec<i64>) {
    let mut table = String::new();
    let mut offsets = Vec::new();
    let mut current = 0;
    for _ in 0..random.below(30) {
        match random.below(4) {
            0 => {
                current = offset(random);
                table += &line(random, current);
            }
            1 => table += random.pick(&["A=b", "# CRON_TZ=+01:00", "", "TZ=+01:00"]),
            _ => {
                table += &of_kind("* * * * * ~a", rules);
                offsets.push(current);
            }
        }
        table.push('\n');
    }
    (table, offsets)
}

/// As many entries as may be, each behind an offset of its own and one that doesn't count.
#[test]
fn a_full_table() {
    let lines = (0..512).map(|number: i64| {
        let offset = WEST + number * 3;
        format!("CRON_TZ=+14:00\nCRON_TZ={}\n* * * * * a\n", text(offset))
    });
    let table: String = lines.collect();
    let compared = Compared::of(table.as_bytes());
    assert_eq!(compared.check(), Ok(512));
    for entry in (0..512).step_by(37).chain([511]) {
        let offset = WEST + entry as i64 * 3;
        for minute in ends(offset) {
            fires_every_minute(&compared, entry, offset, minute);
        }
    }
    compared.everything(&mut Random::new(9));
}
