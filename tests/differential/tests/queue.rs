//! The run queue of the library against the reference program's list.

use differential::queue::{drain, refused, Case, Compared};
use differential::samples::{alike, any_rules, busy_table, numbers, of_kind};
use eremothyn::Table;
use guard::filled;
use reference::calendar::LAST_MINUTE;
use reference::queue::Queue;
use reference::random::Random;
use reference::schedule::samples::start;
use reference::table::{samples, Kind, ENTRIES, TABLE_BYTES};

const OFF_CALENDAR: [u64; 6] = [
    LAST_MINUTE + 1,
    (1 << 32) - 1,
    1 << 32,
    (1 << 32) + 60,
    1 << 63,
    u64::MAX,
];

/// Runs a test with a table in both kinds: `~` is a system table's user.
fn in_both_kinds(table: &str, test: impl Fn(&Case)) {
    for kind in Kind::BOTH {
        let table = of_kind(table, kind);
        test(&Case::under(table.as_bytes(), kind));
    }
}

#[test]
fn the_whole_run() {
    in_both_kinds("* * * * * ~a\n@reboot ~b\n0 * * * * ~c\n", whole_run);
}

fn whole_run(case: &Case) {
    for length in [case.least, case.enough(), 1_000] {
        let mut line = Compared::fresh(case, length);
        assert_eq!(line.pop(case, length), Ok(Some(1)));
        assert_eq!(line.tick(case, length, 59), Ok(1));
        assert_eq!(line.tick(case, length, 60), Ok(1));
        assert_eq!(line.pop(case, length), Ok(Some(0)));
        assert_eq!(line.pop(case, length), Ok(Some(2)));
        assert_eq!(line.pop(case, length), Ok(None));
    }
}

/// Who stands where, without removing anyone.
#[test]
fn who_waits() {
    in_both_kinds("* * * * * ~a\n@reboot ~b\n0 * * * * ~c\n", |case| {
        let room = case.enough();
        let mut line = Compared::fresh(case, room);
        let standing = |line: &Compared| [0, 1, 2, 3].map(|place| line.entry(case, room, place));
        assert_eq!(standing(&line), [Some(1), None, None, None].map(Ok));
        assert_eq!(line.tick(case, room, 60), Ok(2));
        assert_eq!(standing(&line), [Some(1), Some(0), Some(2), None].map(Ok));
        assert_eq!(line.pop(case, room), Ok(Some(1)));
        assert_eq!(standing(&line), [Some(0), Some(2), None, None].map(Ok));
        for place in [1 << 16, 1 << 32, (1 << 32) + 1, u64::MAX] {
            assert_eq!(line.entry(case, room, place), Ok(None));
        }
        assert_eq!(line.entry(case, case.least - 1, 0), Err(28));
    });
}

#[test]
fn a_waiting_entry_joins_no_second_time() {
    in_both_kinds("@reboot ~a\n* * * * * ~b\n* * * * * ~c\n", |case| {
        let room = case.enough();
        let mut line = Compared::fresh(case, room);
        assert_eq!(line.tick(case, room, 7), Ok(2));
        for minute in [7, 8, 7, 6, 0, LAST_MINUTE] {
            assert_eq!(line.tick(case, room, minute), Ok(0));
        }
        assert_eq!(line.pop(case, room), Ok(Some(0)));
        assert_eq!(line.pop(case, room), Ok(Some(1)));
        // Those that were named may join again, behind those that wait, at the same minute too.
        assert_eq!(line.tick(case, room, 7), Ok(1));
        assert_eq!(drain(case, &line.room), Ok(vec![2, 1]));
    });
}

#[test]
fn reboot_entries_wait_at_first_and_never_join() {
    let table = "@reboot ~a\n0 0 * * * ~b\n@reboot ~c\n@reboot ~d\n";
    in_both_kinds(table, |case| {
        let room = case.enough();
        let mut line = Compared::fresh(case, room);
        assert_eq!(line.init(case, room), Ok(3));
        assert_eq!(drain(case, &line.room), Ok(vec![0, 2, 3]));
        for entry in [0, 2, 3] {
            assert_eq!(line.pop(case, room), Ok(Some(entry)));
        }
        assert_eq!(line.tick(case, room, 0), Ok(1));
        assert_eq!(line.tick(case, room, 1_440), Ok(0));
        assert_eq!(drain(case, &line.room), Ok(vec![1]));
    });
}

#[test]
fn a_fresh_line_is_the_same_whatever_the_room_held() {
    let mut random = Random::seeded();
    for entries in 0..40 {
        let rules = any_rules(&mut random);
        let table = busy_table(&mut random, rules, entries);
        let case = Case::under(&table, rules);
        let length = case.enough() + 10;
        let fills = [0, 0xff, 0x55, 0xaa].map(|byte| vec![byte; length]);
        let drawn = (0..length).map(|_| random.number() as u8).collect();
        for room in fills.into_iter().chain([drawn]) {
            let mut line = Compared {
                room,
                queue: Queue::default(),
            };
            let _ = line.init(&case, length);
            line.assert_waiting(&case);
            // The same line in a shorter room.
            let short = line.room[..case.least].to_vec();
            assert_eq!(drain(&case, &short), Ok(line.queue.waiting));
        }
    }
}

#[test]
fn refusals_in_their_order() {
    // The table first: also where the room is too short, no line, and the minute off the calendar.
    let tables: [(&[u8], u64, u64); 12] = [
        (b"60 * * * * a", 0, 6),
        (b"* * * * *", 0, 9),
        (b"a", 0, 11),
        (b"CRON_TZ=a", 0, 25),
        (b"* * * * * a\n\0", 0, 3),
        (&[b'\n'; TABLE_BYTES + 1], 0, 1),
        (b"60 * * * * u a", 1, 6),
        (b"* * * * * a", 1, 9),
        (b"* * * * * a:", 1, 20),
        (b"* * * * * a/b:c d", u64::MAX, 20),
        (b"* * * * * u a\n\0", 2, 3),
        (&[b'\n'; TABLE_BYTES + 1], 1 << 63, 1),
    ];
    for (table, kind, number) in tables {
        for length in [0, 1, 200] {
            for minute in [0, u64::MAX] {
                refused(table, kind, number, &filled(length), minute);
            }
        }
    }
    // Then 28, then 14.
    in_both_kinds("* * * * * ~a\n@reboot ~b\n", |case| {
        let mut line = Compared::fresh(case, case.enough());
        for minute in OFF_CALENDAR {
            assert_eq!(line.tick(case, case.least - 1, minute), Err(28));
            assert_eq!(line.tick(case, case.least, minute), Err(14));
        }
        line.assert_waiting(case);
    });
}

/// A minute to announce, after the one before.
fn minute(random: &mut Random, case: &Case, last: u64) -> u64 {
    match random.below(10) {
        0..=3 => last.saturating_add(1),
        4 => last,
        5 => last.saturating_sub(random.below(100)),
        6 => random.below(100_000),
        7 => start(random),
        8 => random.pick(&OFF_CALENDAR),
        _ if case.count() > 0 => {
            let entry = random.below(case.count() as u64);
            case.next(entry, last).unwrap_or(last)
        }
        _ => last,
    }
}

/// So many of the buffer's bytes are lent: enough, or now and then too few.
fn lent(random: &mut Random, case: &Case, length: usize) -> usize {
    match random.below(16) {
        0 => random.below(case.least as u64 + 1) as usize,
        1 => case.least.saturating_sub(1),
        2..=5 => case.least,
        6..=8 => case.enough().min(length),
        _ => case.least + random.below((length - case.least) as u64 + 1) as usize,
    }
}

/// Any calls with one of the tables each, on one line.
fn long_run(random: &mut Random, cases: &[Case], calls: usize) {
    let length = cases.iter().map(Case::enough).max().expect("a table") + 20;
    let mut line = Compared::fresh(&cases[0], length);
    let mut last = start(random).min(LAST_MINUTE);
    let mut case = &cases[0];
    for _ in 0..calls {
        if random.below(20) == 0 {
            case = &cases[random.below(cases.len() as u64) as usize];
        }
        let lent = lent(random, case, length);
        match random.below(100) {
            0 => {
                let _ = line.init(case, lent);
            }
            1..=50 => {
                let minute = minute(random, case, last);
                if line.tick(case, lent, minute).is_ok() {
                    last = minute;
                }
            }
            51 => {
                // Any table may ask for the line; if it isn't its own, nothing changes.
                if line.queue.is_line_of(&case.table) {
                    line.assert_waiting(case);
                } else {
                    assert_eq!(drain(case, &line.room), Err(28));
                }
            }
            _ => {
                let _ = line.pop(case, lent);
            }
        }
    }
}

#[test]
fn long_runs_with_one_table() {
    let mut random = Random::seeded();
    for round in 0..400 {
        let entries = if round % 20 == 0 {
            ENTRIES as u64
        } else {
            random.below(12)
        };
        let rules = any_rules(&mut random);
        let table = busy_table(&mut random, rules, entries);
        let calls = if entries > 100 { 300 } else { 500 };
        let number = numbers(&mut random, rules);
        long_run(&mut random, &[Case::under(&table, number)], calls);
    }
}

#[test]
fn long_runs_with_tables_that_change() {
    let mut random = Random::seeded();
    for _ in 0..300 {
        // Of either kind: a line has only numbers.
        let tables = [(); 4].map(|_| {
            let rules = any_rules(&mut random);
            let entries = random.below(9);
            let table = busy_table(&mut random, rules, entries);
            (table, numbers(&mut random, rules))
        });
        let cases = tables
            .each_ref()
            .map(|(table, rules)| Case::under(table, *rules));
        long_run(&mut random, &cases, 500);
    }
}

#[test]
fn a_line_that_another_table_left() {
    for kinds in [[0, 0], [0, 1], [1, 0], [1, 1]] {
        a_line_left(kinds.map(Kind::of));
    }
}

/// The table that leaves a line, and those that find it, are of these kinds.
fn a_line_left([left, found]: [Kind; 2]) {
    let tables = [
        (alike(left, "* * * * *", 5), left),
        (alike(found, "@reboot", 3), found),
        (alike(found, "@reboot", 0), found),
    ];
    let [five, three, none] = tables
        .each_ref()
        .map(|(table, kind)| Case::under(table, *kind));
    let room = five.enough();
    let mut line = Compared::fresh(&five, room);
    assert_eq!(line.pop(&three, room), Ok(None));
    assert_eq!(line.pop(&none, room), Ok(None));
    assert_eq!(line.tick(&five, room, 0), Ok(5));
    // It names entries 3 and 4.
    assert_eq!(line.pop(&three, room), Err(28));
    assert_eq!(line.tick(&three, room, 0), Err(28));
    assert_eq!(line.tick(&three, room, u64::MAX), Err(28));
    for entry in 0..5 {
        assert_eq!(line.pop(&five, room), Ok(Some(entry)));
        assert_eq!(
            line.pop(&none, room),
            if entry < 4 { Err(28) } else { Ok(None) }
        );
    }
    // Entries 0 to 2 are entries of both.
    assert_eq!(line.init(&three, room), Ok(3));
    assert_eq!(line.tick(&five, room, 0), Ok(2));
    assert_eq!(drain(&five, &line.room), Ok(vec![0, 1, 2, 3, 4]));
    for entry in 0..5 {
        assert_eq!(line.pop(&three, room), Err(28));
        assert_eq!(line.pop(&five, room), Ok(Some(entry)));
    }
}

/// A line after any calls in so much room.
fn after_any_calls(random: &mut Random, case: &Case, room: usize) -> Compared {
    let mut line = Compared::fresh(case, room);
    for _ in 0..random.below(300) {
        let _ = match random.below(2) {
            0 => line.tick(case, room, start(random)).map(Some),
            _ => line.pop(case, room),
        };
    }
    line
}

/// Demand 3 in practice: one that fires rarely among 511 that fire every minute, with one request a minute.
#[test]
fn a_rare_entry_is_named_within_the_bound() {
    const ENTRIES: u64 = reference::table::ENTRIES as u64;
    // A rare entry, and one of its firings.
    let rare = [
        ("30 4 * * *", 270 + 1_440),
        ("0 0 29 2 *", 70_561_440),
        ("59 23 31 12 *", LAST_MINUTE - ENTRIES + 1 - 525_600),
        ("0 12 14 2 *", 64_080),
    ];
    let mut random = Random::seeded();
    for (fields, about) in rare {
        for place in [0, 1, 127, 128, 510, 511] {
            let rules = any_rules(&mut random);
            let often = of_kind("* * * * * ~often\n", rules);
            let mut lines = vec![&often[..]; ENTRIES as usize];
            let line = of_kind(&format!("{fields} ~rare\n"), rules);
            lines[place as usize] = &line;
            let table = lines.concat();
            let case = Case::under(table.as_bytes(), rules);
            let firing = case.next(place, about - 1).expect("a firing");

            let room = case.enough();
            let mut line = after_any_calls(&mut random, &case, room);
            // Then each minute once, a request after each, and refused calls anywhere. No mark holds the entry back for more
            // than 180 minutes.
            let begin = firing - 180 - random.below(100);
            let last = firing + ENTRIES - 1;
            let mut named = None;
            for minute in begin..=last {
                let _ = line.tick(&case, room, minute);
                let _ = line.tick(&case, room, LAST_MINUTE + 1);
                let _ = line.pop(&case, case.least - 1);
                let answer = line.pop(&case, room);
                if answer == Ok(Some(place)) && minute >= firing {
                    named = Some(minute);
                    break;
                }
            }
            assert!(named.is_some(), "{fields} at {place} from {begin}");
        }
    }
}

/// The longest wait there is, minute by minute: from a mark at Sunday, 29 February 2088, with the clock 180 minutes back, to the
/// next one, and one minute more.
#[test]
fn the_longest_gap_and_the_bound_are_reached() {
    const GAP: u64 = 21_036_960;
    let table = Table::of(b"* * * * * often\n0 0 29 2 */7 rare\n");
    let mark = 62_147_520;
    let mut room = [0; 8 * 2 + 64];
    assert_eq!(table.queue_init(&mut room[..]), Ok(0));
    assert_eq!(table.queue_tick(&mut room[..], mark), Ok(2));
    assert_eq!(table.queue_pop(&mut room[..]), Ok(Some(0)));
    assert_eq!(table.queue_pop(&mut room[..]), Ok(Some(1)));
    let t = mark - 180;
    let last = t + GAP + 180 + 1;
    let mut named = Vec::new();
    for minute in t + 1..=last {
        assert!(table.queue_tick(&mut room[..], minute).is_ok());
        if table.queue_pop(&mut room[..]) == Ok(Some(1)) {
            named.push(minute);
        }
    }
    assert_eq!(named, [last]);
}

#[test]
fn sample_tables_have_their_lines() {
    let mut random = Random::seeded();
    for kind in Kind::BOTH.repeat(200) {
        let count = random.below(8);
        let table = samples::table(&mut random, kind, count);
        let number = numbers(&mut random, kind);
        long_run(&mut random, &[Case::under(&table, number)], 100);
    }
}
