//! A line that goes on with another table: its numbers fit or not, and its mark goes with it.

use crate::{emptied, marked};
use differential::queue::{Case, Compared};
use differential::samples::{any_rules, busy_table, numbers};
use reference::calendar::LAST_MINUTE;
use reference::random::Random;
use reference::schedule::samples::start;

/// The other table's fixed entries are judged by the mark that the first one left.
#[test]
fn the_mark_goes_with_the_line() {
    let first = Case::of(b"* * * * * a\n* * * * * b\n");
    let second = Case::of(b"30 2 * * * a\n* * * * * b\n45 2 * * * c\n");
    let room = second.enough();
    let mut line = Compared::fresh(&first, room);
    assert_eq!(line.tick(&first, room, 155), Ok(2));
    assert_eq!(emptied(&mut line, &first), [0, 1]);
    // 02:30 is before the mark, 02:45 behind it.
    assert_eq!(line.tick(&second, room, 150), Ok(1));
    assert_eq!(line.tick(&second, room, 170), Ok(1));
    // Entry 2 is none of the first table.
    assert_eq!(line.tick(&first, room, 171), Err(28));
    assert_eq!(line.pop(&first, room), Err(28));
    assert_eq!(line.queue.mark, Some(170));
    assert_eq!(emptied(&mut line, &second), [1, 2]);
    assert_eq!(line.tick(&first, room, 171), Ok(2));
}

/// A table without entries carries a mark, too.
#[test]
fn no_entries_and_a_mark() {
    let none = Case::of(b"# nothing\n");
    let one = Case::of(b"30 2 * * * a\n");
    let room = one.enough();
    let mut line = marked(&one, Some(100));
    assert_eq!(line.tick(&none, room, 150), Ok(0));
    assert_eq!(line.queue.mark, Some(150));
    assert_eq!(line.tick(&one, room, 200), Ok(0));
    assert_eq!(line.tick(&none, room, 20), Ok(0));
    assert_eq!(line.tick(&one, room, 150), Ok(1));
}

#[test]
fn runs_with_tables_that_change() {
    let mut random = Random::seeded();
    for _ in 0..100 {
        let tables = [(); 3].map(|_| {
            let rules = any_rules(&mut random);
            let entries = random.below(9);
            let table = busy_table(&mut random, rules, entries);
            (table, numbers(&mut random, rules))
        });
        let cases = tables
            .each_ref()
            .map(|(table, rules)| Case::under(table, *rules));
        let room = cases.iter().map(Case::enough).max().expect("a table");
        let mut line = Compared::fresh(&cases[0], room);
        let mut last = start(&mut random).min(LAST_MINUTE);
        for _ in 0..300 {
            let case = &cases[random.below(3) as usize];
            let minute = match random.below(3) {
                0 => last.saturating_sub(random.below(200)),
                _ => (last + random.below(200)).min(LAST_MINUTE),
            };
            if line.tick(case, room, minute).is_ok() {
                last = minute;
            }
            let _ = line.pop(case, room);
            if !line.queue.is_line_of(&case.table) {
                assert_eq!(line.pop(case, room), Err(28));
            }
        }
    }
}
