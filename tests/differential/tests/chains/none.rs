//! Entries at boot alone, and entries that never fire: no chain, and nothing that is announced lets them join.

use crate::{chain, days};
use differential::queue::{Case, Compared};
use differential::samples::{any_rules, of_kind};
use eremothyn::Table;
use reference::calendar::LAST_MINUTE;
use reference::random::Random;
use reference::schedule::samples::start;
use reference::table::offset::samples as offsets;

/// Times that no minute of any year has, on any clock.
const NEVER: [&str; 5] = [
    "* * 30 2 *",
    "0 0 31 4 *",
    "* * 31 feb,apr,jun,sep,nov *",
    "*/5 * 30,31 2 */2",
    "0-59 0-23 31 11 *",
];

#[test]
fn no_chain_and_no_turn() {
    let mut random = Random::seeded();
    for _ in 0..60 {
        let clock = offsets::any_line(&mut random);
        let never = random.pick(&NEVER);
        let rules = any_rules(&mut random);
        let text = format!("{clock}\n@reboot ~a\n{never} ~b\n* * * * * ~c\n");
        let table = of_kind(&text, rules);
        let library = Table::of(table.as_bytes()).under(rules);
        for _ in 0..20 {
            let from = start(&mut random).min(LAST_MINUTE);
            let whole = [from, LAST_MINUTE];
            assert_eq!(chain(library, 0, whole), (vec![], Some(15)), "{text}");
            assert_eq!(chain(library, 1, whole), (vec![], Some(16)), "{text}");
        }
        let case = Case::under(table.as_bytes(), rules);
        let [first, last] = days(&mut random, 1);
        one_by_one(&case, first + 1..=last);
        one_by_one(&case, (0..200).map(|_| start(&mut random).min(LAST_MINUTE)));
    }
}

/// Announces minutes on a line that is emptied before each: only the third entry is ever named.
fn one_by_one(case: &Case, minutes: impl Iterator<Item = u64>) {
    let room = case.enough();
    let mut line = Compared::fresh(case, room);
    assert_eq!(line.pop(case, room), Ok(Some(0)));
    for minute in minutes {
        assert!(line.tick(case, room, minute).is_ok());
        while let Some(entry) = line.pop(case, room).expect("a line") {
            assert_eq!(entry, 2, "minute {minute}");
        }
    }
}
