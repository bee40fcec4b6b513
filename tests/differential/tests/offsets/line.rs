//! The line of waiting jobs: minutes announced are UTC.

use crate::{ends, minutes};
use differential::queue::{drain, Case, Compared};
use differential::samples::of_kind;
use reference::calendar::LAST_MINUTE;
use reference::table::offset::known::SEVERAL;
use reference::table::offset::samples::OFFSETS;
use reference::table::offset::text;
use reference::table::Kind;

/// An entry of every minute under each offset: those join whose clocks are on the calendar.
fn every_minute(kind: Kind) -> String {
    let lines = OFFSETS.map(|offset| format!("CRON_TZ={}\n* * * * * ~a\n", text(offset)));
    of_kind(&lines.concat(), kind)
}

#[test]
fn who_joins_at_every_minute() {
    for kind in Kind::BOTH {
        let table = every_minute(kind);
        let case = Case::under(table.as_bytes(), kind);
        let room = case.enough();
        for minute in minutes() {
            let mut line = Compared::fresh(&case, room);
            let answer = line.tick(&case, room, minute);
            if minute > LAST_MINUTE {
                assert_eq!(answer, Err(14));
                continue;
            }
            let joins = |&entry: &u64| {
                let [first, last] = ends(OFFSETS[entry as usize]);
                (first..=last).contains(&minute)
            };
            let joined: Vec<u64> = (0..OFFSETS.len() as u64).filter(joins).collect();
            assert_eq!(answer, Ok(joined.len() as u64), "{minute}");
            assert_eq!(drain(&case, &line.room), Ok(joined), "{minute}");
            // All who can wait already.
            assert_eq!(line.tick(&case, room, minute), Ok(0));
        }
    }
}

/// One line through all those minutes, up and down, with a request after each.
#[test]
fn a_run_up_and_down() {
    for kind in Kind::BOTH {
        let lines = ["0 0 * * *", "*/2 * * * *", "59 23 31 12 *", "@reboot"]
            .map(|time| OFFSETS.map(|offset| format!("CRON_TZ={}\n{time} ~a\n", text(offset))));
        let table = of_kind(&lines.concat().concat(), kind);
        let case = Case::under(table.as_bytes(), kind);
        let room = case.enough();
        let mut line = Compared::fresh(&case, room);
        for minute in minutes().into_iter().chain(minutes().into_iter().rev()) {
            let _ = line.tick(&case, room, minute);
            let _ = line.pop(&case, room);
        }
        line.assert_waiting(&case);
    }
}

/// Each entry of the table is midnight by its own clock.
#[test]
fn a_day_with_several_offsets() {
    for kind in Kind::BOTH {
        let table = of_kind(SEVERAL, kind);
        let case = Case::under(table.as_bytes(), kind);
        let room = case.enough();
        let mut line = Compared::fresh(&case, room);
        let mut named = Vec::new();
        for minute in 0..=1_440 {
            let _ = line.tick(&case, room, minute);
            while let Ok(Some(entry)) = line.pop(&case, room) {
                named.push((minute, entry));
            }
        }
        // The boot job first, then UTC, two hours to the west, two to the east, and UTC again.
        let expected = [
            (0, 4),
            (0, 0),
            (0, 6),
            (0, 7),
            (120, 3),
            (120, 5),
            (1_320, 1),
            (1_320, 2),
            (1_440, 0),
            (1_440, 6),
            (1_440, 7),
        ];
        assert_eq!(named, expected);
    }
}

/// The last of 512 entries is due once, by its own clock; the others are due every minute. It joins behind them all, at the
/// first local minute in the west or at the last one in the east, and with a request a minute each of them goes first.
#[test]
fn a_rare_entry_is_named_after_all_others() {
    const OTHERS: u64 = 511;
    let often = "* * * * * often\n".repeat(OTHERS as usize);
    for (rare, firing) in [
        ("CRON_TZ=-12:00\n0 0 1 1 * rare\n", 720),
        ("CRON_TZ=+14:00\n59 23 31 12 * rare\n", LAST_MINUTE - 840),
    ] {
        let table = format!("{often}{rare}");
        let case = Case::of(table.as_bytes());
        let room = case.enough();
        let mut line = Compared::fresh(&case, room);
        let mut named = Vec::new();
        for minute in firing - 719..firing + 800 {
            let _ = line.tick(&case, room, minute);
            if line.pop(&case, room) == Ok(Some(OTHERS)) {
                named.push(minute);
            }
        }
        assert_eq!(named, [firing + OTHERS]);
    }
}
