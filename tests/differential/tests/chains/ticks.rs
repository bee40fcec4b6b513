//! Chains against announcements: every minute from the start on, one by one, on a line that has no mark at first and is emptied
//! before each. Who joined is who is named when it is emptied again.

use crate::{days, dense, minutes_of};
use eremothyn::Table;
use guard::filled;
use reference::queue::{room, Queue};
use reference::random::Random;

/// Requests until nothing waits; who was named.
fn emptied(table: Table, room: &mut [u8]) -> Vec<u64> {
    let mut named = Vec::new();
    while let Some(entry) = table.queue_pop(&mut *room).expect("a line") {
        named.push(entry);
    }
    named
}

/// The minutes at which each entry joins.
fn joined(table: Table, entries: u64, room: &mut [u8], [start, last]: [u64; 2]) -> Vec<Vec<u64>> {
    let mut joined = vec![Vec::new(); entries as usize];
    let _ = emptied(table, room);
    for minute in start + 1..=last {
        let answer = table.queue_tick(&mut *room, minute);
        let joiners = emptied(table, room);
        assert_eq!(answer, Ok(joiners.len() as u64), "minute {minute}");
        for entry in joiners {
            joined[entry as usize].push(minute);
        }
    }
    joined
}

/// A room with a line of so many entries on which some wait, and no mark.
fn unmarked(random: &mut Random, entries: u64) -> Vec<u8> {
    let mut room = filled(room::size(entries as usize) + random.below(9) as usize);
    let first = random.below(entries + 1);
    let waiting = (first..entries).rev().collect();
    Queue {
        waiting,
        mark: None,
    }
    .lay(&mut room);
    room
}

/// A fresh line's room.
fn fresh(table: Table, entries: u64) -> Vec<u8> {
    let mut room = filled(8 * entries as usize + 64);
    assert!(table.queue_init(&mut room[..]).is_ok());
    room
}

#[test]
fn chains_are_what_announcements_find() {
    let mut random = Random::seeded();
    let mut firings = 0;
    for _ in 0..150 {
        let (bytes, numbers) = dense(&mut random);
        println!("{} {numbers:?}", bytes.escape_ascii());
        let table = Table::of(&bytes).under(numbers);
        let entries = table.check().expect("a good table");
        let mut room = match random.below(2) {
            0 => fresh(table, entries),
            _ => unmarked(&mut random, entries),
        };
        let span = days(&mut random, 3);
        let joined = joined(table, entries, &mut room, span);
        for (entry, found) in (0..).zip(joined) {
            assert_eq!(minutes_of(table, entry, span), found, "{entry}, {span:?}");
            firings += found.len();
        }
    }
    assert!(firings > 20_000, "{firings} firings");
}

/// On a line that has a mark, announcements may find less: a fixed entry isn't let in again, any other is.
#[test]
fn no_mark_is_needed() {
    let table = Table::of(b"0 0 * * * a\n0 * * * * b\n");
    let mut room = fresh(table, 2);
    assert_eq!(table.queue_tick(&mut room[..], 1_440), Ok(2));
    let span = [1_000, 3_000];
    assert_eq!(minutes_of(table, 0, span), [1_440, 2_880]);
    let joined = joined(table, 2, &mut room, [1_300, 3_000]);
    assert_eq!(joined[0], [2_880]);
    assert_eq!(joined[1], minutes_of(table, 1, [1_300, 3_000]));
}
