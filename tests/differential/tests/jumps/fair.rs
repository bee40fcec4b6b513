//! The third demand with its 180 minutes more, for an entry of every day: whatever went before, it is named in time.

use crate::marked;
use differential::queue::{Case, Compared};
use differential::samples::{any_rules, busy_table, of_kind};
use reference::calendar::LAST_MINUTE;
use reference::random::Random;
use reference::table::offset::{samples as offsets, text};
use reference::table::Rules;

/// The longest that an entry of every day has to wait until it is due.
const GAP: u64 = 1_440;
const HELD: u64 = 180;

/// The minute of the first request that names an entry, with one after each minute from t+1 on.
fn named(case: &Case, line: &mut Compared, entry: u64, t: u64) -> Option<u64> {
    let room = case.enough();
    (t + 1..=t + GAP + HELD + case.count() as u64).find(|&minute| {
        let _ = line.tick(case, room, minute);
        line.pop(case, room) == Ok(Some(entry))
    })
}

/// Some entries, one of which is due once a day by some clock, at its place among the others.
fn table(random: &mut Random) -> (Vec<u8>, Rules, u64) {
    let rules = any_rules(random);
    let [before, behind] = [(); 2].map(|_| random.below(5));
    let [minute, hour] = [60, 24].map(|end| random.below(end));
    let fields = match random.below(4) {
        0 => format!("*/60 {hour} * * *"),
        _ => format!("{minute} {hour} * * *"),
    };
    let daily = format!("{}\n{fields} ~daily\n", offsets::any_line(random));
    let table = [
        busy_table(random, rules, before),
        of_kind(&daily, rules).into_bytes(),
        busy_table(random, rules, behind),
    ];
    (table.concat(), rules, before)
}

#[test]
fn an_entry_of_every_day_is_named_in_time() {
    let mut random = Random::seeded();
    for _ in 0..100 {
        let (table, rules, entry) = table(&mut random);
        let case = Case::under(&table, rules);
        let room = case.enough();
        // From 1971 on: then every clock shows a date of the calendar.
        let t = 525_600 + random.below(LAST_MINUTE - 2 * 525_600);
        let mut line = Compared::fresh(&case, room);
        for _ in 0..random.below(30) {
            let minute = t - 300 + random.below(600);
            let _ = line.tick(&case, room, minute);
            let _ = line.pop(&case, room);
        }
        let mark = line.queue.mark;
        let last = t + GAP + HELD + case.count() as u64 - 1;
        let named = named(&case, &mut line, entry, t);
        let shown = table.escape_ascii();
        assert!(
            named.is_some_and(|minute| minute <= last),
            "{named:?} from {t} with {mark:?}: {shown}"
        );
    }
}

/// The bound is reached: the mark is the entry's own minute, and the clock 180 minutes back.
#[test]
fn all_180_minutes_are_needed() {
    for offset in [-720, -61, 0, 840] {
        let table = format!("* * * * * a\nCRON_TZ={}\n30 2 * * * b\n", text(offset));
        let case = Case::of(table.as_bytes());
        let firing = case.next(1, 30_000_000).expect("a firing");
        for back in [1, 100, 179, 180, 181] {
            let mut line = marked(&case, Some(firing));
            let t = firing - back;
            // It waits for the other one, too. 180 back t+1 is 179 below the mark; further back the clock is a new one.
            let due = if back <= HELD { firing + GAP } else { firing };
            assert_eq!(named(&case, &mut line, 1, t), Some(due + 1));
        }
    }
}
