use super::known::{BAD_LINES, DUE, NEXT, NO_OFFSETS, OTHER_NAMES, SEVERAL, SEVERAL_NEXT};
use super::*;
use crate::calendar::LAST_MINUTE;
use crate::queue::Queue;
use crate::random::Random;
use crate::schedule::samples::start;
use crate::table::calls::Calls;
use crate::table::{read, Fault, Kind};

/// An entry under an offset, as a table of a kind.
fn table_of(value: &str, fields: &str, kind: Kind) -> String {
    let user = if kind == Kind::System { "u " } else { "" };
    format!("CRON_TZ={value}\n{fields} {user}a\n")
}

#[test]
fn firings_by_hand() {
    for kind in Kind::BOTH {
        for (value, fields, minute, expected) in NEXT {
            let table = table_of(value, fields, kind);
            let found = Calls::of(table.as_bytes(), kind).next(0, minute);
            assert_eq!(found, expected, "{table} after {minute}");
        }
        for (value, fields, minute, expected) in DUE {
            let table = table_of(value, fields, kind);
            let found = Calls::of(table.as_bytes(), kind).due(0, minute);
            assert_eq!(found, expected, "{table} at {minute}");
        }
    }
}

/// An offset holds from its setting to the next one.
#[test]
fn several_offsets_in_a_table() {
    for (kind, user) in [(Kind::User, ""), (Kind::System, "u:g ")] {
        let table = SEVERAL.replace('~', user);
        let calls = Calls::of(table.as_bytes(), kind);
        let found: Vec<_> = (0..8).map(|entry| calls.next(entry, 0)).collect();
        assert_eq!(found, SEVERAL_NEXT);
        // They are shown as any other setting is.
        assert_eq!(calls.check(), Ok(8));
        let lines = (1..=16).filter(|&line| calls.setting(line).is_ok());
        assert_eq!(lines.collect::<Vec<u64>>(), [2, 4, 6, 10, 11, 14, 16]);
    }
}

/// At 22:00 in UTC it is midnight two hours to the east, and at 02:00 two hours to the west.
#[test]
fn an_announcement_is_in_utc() {
    let table = SEVERAL.replace('~', "");
    let table = read(table.as_bytes(), Kind::User).expect("a good table");
    let mut queue = Queue::fresh(&table);
    let rows: [(u64, &[u64]); 6] = [
        (0, &[0, 6, 7]),
        (120, &[3, 5]),
        (1_319, &[]),
        (1_320, &[1, 2]),
        (1_440, &[0, 6, 7]),
        (LAST_MINUTE, &[]),
    ];
    for (minute, joined) in rows {
        queue.waiting.clear();
        assert_eq!(queue.tick(&table, minute), Ok(joined.len() as u64));
        assert_eq!(queue.waiting, joined, "{minute}");
    }
    assert_eq!(queue.tick(&table, LAST_MINUTE + 1), Err(14));
}

/// Of all values of the form, those up to 12 hours to the west and up to 14 to the east are offsets.
#[test]
fn every_value_of_the_form() {
    let mut good = 0;
    for hours in 0..100 {
        for minutes in 0..100 {
            for (sign, most) in [('+', 14), ('-', 12)] {
                let line = format!("CRON_TZ={sign}{hours:02}:{minutes:02}\n");
                let is_good = minutes < 60 && (hours < most || hours == most && minutes == 0);
                let found = read(line.as_bytes(), Kind::User);
                assert_eq!(found.is_ok(), is_good, "{line}");
                good += u32::from(is_good);
            }
        }
    }
    // 0 has two signs.
    assert_eq!(good, 840 + 720 + 2);
    assert_eq!(offsets().len(), 1_562);
}

#[test]
fn refusals_have_their_places() {
    let of_values = NO_OFFSETS.map(|value| (format!("CRON_TZ={value}"), 25, 9));
    let of_lines = BAD_LINES.map(|(line, number, column)| (line.to_string(), number, column));
    for (line, number, column) in of_values.into_iter().chain(of_lines) {
        let expected = Fault {
            number,
            line: 2,
            column,
        };
        for kind in Kind::BOTH {
            for end in ["", "\n", "\n60"] {
                let table = format!("A=b\n{line}{end}");
                let found = read(table.as_bytes(), kind).err();
                assert_eq!(found, Some(expected), "{table}");
            }
        }
    }
}

/// Only the shown bytes of the name count, and all of them.
#[test]
fn other_names_have_no_special_meaning() {
    for name in OTHER_NAMES {
        for value in NO_OFFSETS.into_iter().chain(["+05:30"]) {
            let table = format!("{name}={value}\n0 0 * * * a\n");
            let calls = Calls::of(table.as_bytes(), Kind::User);
            assert_eq!(calls.next(0, 0), Ok(1_440), "{table}");
        }
    }
}

/// The search by local days, and the plain walk over the minutes in UTC.
#[test]
fn the_search_and_the_walk_agree() {
    // As far as is walked where there may be no firing.
    const NEAR: u64 = 5_000;
    let mut random = Random::seeded();
    for _ in 0..20_000 {
        let table = format!(
            "{}\n{} a\n",
            samples::any_line(&mut random),
            crate::table::samples::fields(&mut random).join(" ")
        );
        let table = read(table.as_bytes(), Kind::User).expect("a good table");
        let entry = &table.entries[0];
        let minute = match random.below(3) {
            0 => random.below(1_000),
            1 => LAST_MINUTE - random.below(1_000),
            _ => start(&mut random).min(LAST_MINUTE),
        };
        let last = LAST_MINUTE.min(minute + NEAR);
        let walked = (minute + 1..=last).find(|&later| entry.matches(later));
        let found = entry
            .next_after(minute)
            .ok()
            .filter(|&firing| firing <= last);
        assert_eq!(found, walked, "{entry:?} after {minute}");
    }
}

/// A start before 1970 by the local clock is at most 720 minutes before it.
#[test]
fn a_firing_is_at_most_the_gap_ahead() {
    const GAP: u64 = 21_036_960;
    let mut random = Random::seeded();
    for _ in 0..2_000 {
        let schedule = crate::schedule::samples::schedule(&mut random);
        let offset = samples::offset(&mut random);
        let minute = match random.below(2) {
            0 => random.below(800),
            _ => start(&mut random).min(LAST_MINUTE),
        };
        let bound = match minute.checked_add_signed(offset) {
            Some(_) => GAP,
            None => GAP + 720,
        };
        if let Ok(firing) = schedule.next_under(offset, minute) {
            assert!(firing - minute <= bound, "{schedule:x?} {offset} {minute}");
        }
    }
}

#[test]
fn samples_are_what_they_say() {
    let mut random = Random::seeded();
    for _ in 0..20_000 {
        let offset = samples::offset(&mut random);
        let table = samples::line(&mut random, offset) + "\n@daily a\n";
        let read_table = read(table.as_bytes(), Kind::User).expect("a good table");
        assert_eq!(read_table.entries[0].offset, offset, "{table}");
        let (line, before) = samples::bad_line(&mut random);
        let expected = Fault {
            number: 25,
            line: 1,
            column: before as u64 + 1,
        };
        assert_eq!(
            read(line.as_bytes(), Kind::User).err(),
            Some(expected),
            "{line}"
        );
    }
}
