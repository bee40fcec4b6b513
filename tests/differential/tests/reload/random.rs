//! Random tables that are edited while jobs wait: lines exchanged, removed, doubled, changed and put in.

use crate::enough;
use differential::edits::{edited, lines};
use differential::queue::{Case, Compared};
use differential::samples::{any_rules, busy_table, numbers};
use eremothyn::Numbers;
use reference::calendar::LAST_MINUTE;
use reference::queue::Queue;
use reference::random::Random;
use reference::schedule::samples::start;

/// Some minutes and requests.
fn live(random: &mut Random, case: &Case, line: &mut Compared) {
    let room = line.room.len();
    for _ in 0..random.below(6) {
        let minute = match line.queue.mark {
            Some(mark) if random.below(4) > 0 => (mark + random.below(90)).min(LAST_MINUTE),
            _ => start(random),
        };
        let _ = line.tick(case, room, minute);
        for _ in 0..random.below(3) {
            let _ = line.pop(case, room);
        }
    }
}

/// A reload, and what the ticket says of the line after it, whatever the reference program says.
fn reload(old: &Case, new: &Case, line: &mut Compared) {
    let room = line.room.len();
    let before = line.queue.clone();
    let answer = line.reload(old, new, room);
    assert_eq!(answer, Ok(line.queue.waiting.len() as u64));
    assert!(line.queue.is_line_of(&new.table));
    assert_eq!(line.queue.mark, before.mark);
    assert!(line.queue.waiting.len() <= before.waiting.len());
    // Each is one of the old line, in its order, by the command, which alone shows in both.
    let commands = |case: &Case, queue: &Queue| -> Vec<Vec<u8>> {
        let entries = queue.waiting.iter();
        entries
            .map(|&entry| case.table.entries[entry as usize].command.to_vec())
            .collect()
    };
    let mut old_commands = commands(old, &before).into_iter();
    for command in commands(new, &line.queue) {
        assert!(old_commands.any(|old| old == command));
    }
    line.assert_waiting(new);
}

fn case<'a>(table: &'a [u8], numbers: Numbers) -> Case<'a> {
    Case::under(table, numbers)
}

#[test]
fn tables_that_are_edited() {
    let mut random = Random::seeded();
    let (mut kept, mut left) = (0, 0);
    for _ in 0..600 {
        let rules = any_rules(&mut random);
        let numbers = numbers(&mut random, rules);
        let entries = random.below(9);
        let mut table = busy_table(&mut random, rules, entries);
        let mut line = Compared::fresh(&case(&table, numbers), 1_000);
        for _ in 0..4 {
            let new_table = edited(&mut random, rules, &table);
            let (old, new) = (case(&table, numbers), case(&new_table, numbers));
            assert!(enough(&old, &new) <= 1_000);
            live(&mut random, &old, &mut line);
            let before = line.queue.waiting.len();
            reload(&old, &new, &mut line);
            kept += line.queue.waiting.len();
            left += before - line.queue.waiting.len();
            live(&mut random, &new, &mut line);
            drop((old, new));
            table = new_table;
        }
    }
    assert!(kept > 1_000 && left > 200, "{kept} kept, {left} left");
}

/// Lines in another order, and back: everyone stands as before. No clocks: an entry would get another one.
#[test]
fn there_and_back() {
    let mut random = Random::seeded();
    for _ in 0..300 {
        let rules = any_rules(&mut random);
        let entries = 1 + random.below(20);
        let table = busy_table(&mut random, rules, entries);
        let mut shuffled = lines(&table);
        shuffled.retain(|line| !line.windows(7).any(|word| word == b"CRON_TZ"));
        let table = shuffled.concat();
        for at in (1..shuffled.len()).rev() {
            shuffled.swap(at, random.below(at as u64 + 1) as usize);
        }
        let shuffled = shuffled.concat();
        let (old, new) = (case(&table, rules.into()), case(&shuffled, rules.into()));
        let mut line = Compared::fresh(&old, enough(&old, &new));
        live(&mut random, &old, &mut line);
        let before = (line.room.clone(), line.queue.clone());
        reload(&old, &new, &mut line);
        assert_eq!(line.queue.waiting.len(), before.1.waiting.len());
        reload(&new, &old, &mut line);
        assert_eq!((line.room, line.queue), before);
    }
}

/// Tables of as many entries as may be, all of which wait.
#[test]
fn full_tables() {
    let mut random = Random::seeded();
    for _ in 0..4 {
        let rules = any_rules(&mut random);
        let table = busy_table(&mut random, rules, 512);
        let mut turned = lines(&table);
        let by = random.below(turned.len() as u64) as usize;
        turned.rotate_left(by);
        let turned = turned.concat();
        let (old, new) = (case(&table, rules.into()), case(&turned, rules.into()));
        let room = enough(&old, &new);
        let queue = Queue {
            waiting: (0..512).rev().collect(),
            mark: Some(5),
        };
        let mut line = Compared {
            room: vec![0; room],
            queue,
        };
        line.queue.lay(&mut line.room);
        reload(&old, &new, &mut line);
    }
}
