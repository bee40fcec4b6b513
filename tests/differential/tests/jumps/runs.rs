//! Long runs of a clock that jumps, with requests in between. Every room is compared byte by byte.

use differential::jumps::{jumped, minute};
use differential::queue::{Case, Compared};
use differential::samples::{any_rules, busy_table, numbers, of_kind};
use reference::calendar::LAST_MINUTE;
use reference::random::Random;
use reference::schedule::samples::start;
use reference::table::offset::samples as offsets;
use reference::table::{Kind, ENTRIES};

/// What a run came to see.
#[derive(Default)]
struct Seen {
    ticks: usize,
    /// Announcements by which the mark stayed, or moved back.
    held: usize,
    fell: usize,
}

fn run(random: &mut Random, case: &Case, ticks: usize, seen: &mut Seen) {
    let room = case.enough();
    let mut line = Compared::fresh(case, room);
    let mut last = start(random).min(LAST_MINUTE);
    for _ in 0..ticks {
        let minute = minute(random, &line, last);
        let before = line.queue.mark;
        if line.tick(case, room, minute).is_ok() {
            last = minute;
            seen.ticks += 1;
            seen.held += usize::from(line.queue.mark == before);
            seen.fell += usize::from(line.queue.mark < before);
        }
        for _ in 0..random.below(4) {
            let _ = line.pop(case, room);
        }
    }
    line.assert_waiting(case);
}

#[test]
fn a_clock_that_jumps() {
    let mut random = Random::seeded();
    let mut seen = Seen::default();
    for round in 0..120 {
        let entries = match round % 40 {
            0 => ENTRIES as u64,
            _ => random.below(14),
        };
        let rules = any_rules(&mut random);
        let table = busy_table(&mut random, rules, entries);
        let case = Case::under(&table, numbers(&mut random, rules));
        let ticks = if entries > 100 { 100 } else { 2_000 };
        run(&mut random, &case, ticks, &mut seen);
    }
    let Seen { ticks, held, fell } = seen;
    assert!(ticks > 100_000, "{ticks} ticks");
    assert!(held > ticks / 50 && fell > ticks / 50, "{held}, {fell}");
}

/// Fixed entries alone, under a clock each, at the minutes about which they are due.
#[test]
fn fixed_entries_by_their_own_clocks() {
    let mut random = Random::seeded();
    for _ in 0..60 {
        let lines: String = (0..10)
            .map(|_| {
                let [minute, hour] = [60, 24].map(|end| random.below(end));
                let days =
                    random.pick(&["* * *", "*/2 * *", "1 1 *", "29 2 *", "* * 0", "31 12 *"]);
                let clock = offsets::any_line(&mut random);
                format!("{clock}\n{minute} {hour} {days} ~a\n")
            })
            .collect();
        let rules = any_rules(&mut random);
        let table = of_kind(&lines, rules);
        let case = Case::under(table.as_bytes(), rules);
        let room = case.enough();
        for _ in 0..200 {
            let mut line = Compared::fresh(&case, room);
            let entry = random.below(10);
            let start = start(&mut random).min(LAST_MINUTE);
            let Ok(firing) = case.next(entry, start) else {
                continue;
            };
            // A mark before or after it, and a minute on its other side.
            let _ = line.tick(&case, room, jumped(&mut random, firing));
            let _ = line.pop(&case, room);
            for _ in 0..3 {
                let _ = line.tick(&case, room, jumped(&mut random, firing));
            }
            line.assert_waiting(&case);
        }
    }
}

/// Every distance from a mark, up to 400 minutes either way, with fixed and other entries due about there.
#[test]
fn every_distance_from_the_mark() {
    let table = "0 2 * * * ~a\n*/7 * * * * ~b\n15,45 0-5 * * * ~c\nCRON_TZ=-01:30\n30 1 * * * ~d\n";
    for kind in Kind::BOTH {
        let table = of_kind(table, kind);
        let case = Case::under(table.as_bytes(), kind);
        let room = case.enough();
        for mark in [
            0,
            120,
            179,
            180,
            181,
            30_000_120,
            LAST_MINUTE - 100,
            LAST_MINUTE,
        ] {
            for minute in mark.saturating_sub(400)..=(mark + 400).min(LAST_MINUTE) {
                let mut line = crate::marked(&case, Some(mark));
                let _ = line.tick(&case, room, minute);
                line.assert_waiting(&case);
            }
        }
    }
}
