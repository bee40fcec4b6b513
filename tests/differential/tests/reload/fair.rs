//! The third demand goes on after a reload: whatever waited, an entry of every day is named in time by the new table.

use crate::enough;
use differential::queue::{Case, Compared};
use differential::samples::{any_rules, busy_table, of_kind};
use reference::calendar::LAST_MINUTE;
use reference::random::Random;
use reference::table::offset::samples as offsets;
use reference::table::Rules;

/// The longest that an entry of every day has to wait until it is due, and the minutes more for a clock that jumped.
const GAP: u64 = 1_440;
const HELD: u64 = 180;

/// Some entries, the one of every day, and some more; and which it is.
fn around(random: &mut Random, rules: Rules, daily: &str) -> (Vec<u8>, u64) {
    let [before, behind] = [(); 2].map(|_| random.below(6));
    let table = [
        busy_table(random, rules, before),
        daily.as_bytes().to_vec(),
        busy_table(random, rules, behind),
    ];
    (table.concat(), before)
}

#[test]
fn an_entry_of_every_day_is_named_in_time() {
    let mut random = Random::seeded();
    for _ in 0..60 {
        let rules = any_rules(&mut random);
        let [minute, hour] = [60, 24].map(|end| random.below(end));
        let clock = offsets::any_line(&mut random);
        let daily = of_kind(&format!("{clock}\n{minute} {hour} * * * ~daily\n"), rules);
        let (old_table, _) = around(&mut random, rules, &daily);
        let (new_table, entry) = around(&mut random, rules, &daily);
        let (old, new) = (
            Case::under(&old_table, rules),
            Case::under(&new_table, rules),
        );
        let room = enough(&old, &new);
        // From 1971 on: then every clock shows a date of the calendar.
        let t = 525_600 + random.below(LAST_MINUTE - 2 * 525_600);
        let mut line = Compared::fresh(&old, room);
        for _ in 0..random.below(30) {
            let _ = line.tick(&old, room, t - 300 + random.below(600));
            let _ = line.pop(&old, room);
        }
        assert!(line.reload(&old, &new, room).is_ok());
        let last = t + GAP + HELD + new.count() as u64 - 1;
        let named = (t + 1..=last).any(|minute| {
            let _ = line.tick(&new, room, minute);
            line.pop(&new, room) == Ok(Some(entry))
        });
        assert!(named, "from {t}: {}", new_table.escape_ascii());
    }
}
