//! Rooms of every length about the least, with any bytes in them, with lines, and with damaged lines.

use crate::{bytes, numbers};
use differential::queue::{judge, refused, Case, Compared};
use differential::samples::{alike, any_rules, busy_table, damage};
use eremothyn::{Answer, Numbers, Table};
use guard::filled;
use reference::queue::Queue;
use reference::random::Random;
use reference::table::{Kind, ENTRIES};

/// Every call of the run queue with a table, whose check answered so, in some room.
pub fn every_call(random: &mut Random, table: &[u8], under: Numbers, check: Answer) {
    let minute = numbers::minute(random);
    match check {
        Err(number) => {
            let length = random.below(100) as usize;
            refused(table, under, number, &bytes::any(random, length), minute);
        }
        Ok(_) => {
            let case = Case::under(table, under);
            for _ in 0..3 {
                let length = near(random, case.least);
                let _ = every_call_in(random, &case, length);
            }
        }
    }
}

/// A length about the least.
fn near(random: &mut Random, least: usize) -> usize {
    match random.below(5) {
        0 => random.below(least as u64 + 1) as usize,
        1 => least.saturating_sub(1),
        2 | 3 => least,
        _ => least + random.below(80) as usize,
    }
}

/// Every call, each in a room of so many bytes that holds the same; whether they were a line.
fn every_call_in(random: &mut Random, case: &Case, length: usize) -> bool {
    let room = room(random, case, length);
    let is_queue = judge(case, &room, numbers::minute(random));
    reloaded(random, case, &room);
    let queue = Queue::default();
    let mut line = Compared { room, queue };
    if line.init(case, length).is_ok() {
        line.assert_waiting(case);
    }
    is_queue
}

/// A reload with another table, in a room that may be a line.
fn reloaded(random: &mut Random, case: &Case, room: &[u8]) {
    let entries = random.below(case.count().min(20) as u64 + 3);
    let table = busy_table(random, case.rules(), entries);
    let new = Case::under(&table, case.rules());
    let mut line = Compared {
        room: room.to_vec(),
        queue: Queue::default(),
    };
    match Queue::in_room(room, case.count()) {
        Some(queue) => {
            line.queue = queue;
            let _ = line.reload(case, &new, room.len());
        }
        None => line.refuses_reload(case, &new),
    }
}

/// So many bytes: any, all alike, a line, or a damaged one. A line is cut off where there is too little room.
fn room(random: &mut Random, case: &Case, length: usize) -> Vec<u8> {
    let alike = random.pick(&[0, 1, 0x80, 0xff]);
    match random.below(8) {
        0 => return bytes::any(random, length),
        1 => return vec![alike; length],
        _ => {}
    }
    let enough = length.max(case.least);
    let mut line = Compared::fresh(case, enough);
    for _ in 0..random.below(4) {
        let _ = line.tick(case, enough, numbers::minute(random));
        let _ = line.pop(case, enough);
    }
    line.room.truncate(length);
    if random.below(2) == 0 {
        let front = length.min(case.least);
        damage(random, &mut line.room[..front], case.count() as u64);
    }
    line.room
}

#[test]
fn rooms_of_every_length() {
    let mut random = Random::seeded();
    let (mut lines, mut others) = (0, 0);
    for entries in [0, 1, 2, 3, 4, 5, 8, 13, 31, 64, 128, 129, ENTRIES] {
        let rules = any_rules(&mut random);
        let table = busy_table(&mut random, rules, entries as u64);
        let case = Case::under(&table, rules);
        let times = if entries < 10 { 40 } else { 2 };
        // Every length, but of a room for many only some, and those about the least.
        let step = 1 + entries / 40;
        let about = case.least.saturating_sub(2)..=case.least + 2;
        for length in (0..=case.enough() + 9).step_by(step).chain(about) {
            for _ in 0..times {
                match every_call_in(&mut random, &case, length) {
                    true => lines += 1,
                    false => others += 1,
                }
            }
        }
    }
    // Both were seen.
    assert!(
        lines > 1_000 && others > 1_000,
        "{lines} lines, {others} others"
    );
}

/// The least room is one for the count of entries, whatever they are and of either kind, and all of them can wait in it.
#[test]
fn the_least_room_holds_all_entries() {
    let mut least = Vec::new();
    for entries in (0..=20).chain([63, 64, 65, 127, 128, 129, ENTRIES - 1, ENTRIES]) {
        let tables = all_alike(entries);
        let cases = tables
            .each_ref()
            .map(|(table, kind)| Case::under(table, *kind));
        let room = cases[0].least;
        assert!(cases.iter().all(|case| case.least == room));
        least.push(room);
        for case in &cases {
            let mut line = Compared::fresh(case, case.least);
            let _ = line.tick(case, case.least, 0);
            assert_eq!(line.queue.waiting.len(), entries);
            line.assert_waiting(case);
        }
    }
    assert!(least.is_sorted(), "{least:?}");
}

/// Tables of both kinds with so many entries, which fire every minute or at boot.
fn all_alike(entries: usize) -> [(Vec<u8>, Kind); 4] {
    let [user, system] = Kind::BOTH
        .map(|kind| ["* * * * *", "@reboot"].map(|time| (alike(kind, time, entries), kind)));
    let ([a, b], [c, d]) = (user, system);
    [a, b, c, d]
}

/// A line goes on in a shorter or longer part of its buffer, or is refused there and stays.
#[test]
fn a_line_lent_in_parts_of_every_length() {
    for entries in [0, 1, 2, 7, 20, 65, 129, ENTRIES] {
        for (table, kind) in all_alike(entries) {
            let case = Case::under(&table, kind);
            let most = case.enough() + 70;
            let about = case.least.saturating_sub(1)..=case.least + 1;
            for length in (0..=most)
                .step_by(7 + entries / 8)
                .chain(about)
                .chain([case.enough()])
            {
                let mut line = Compared::fresh(&case, most);
                let _ = line.tick(&case, length, 0);
                let _ = line.tick(&case, length, u64::MAX);
                let _ = line.pop(&case, length);
                let _ = line.init(&case, length);
                line.assert_waiting(&case);
            }
        }
    }
}

#[test]
fn bytes_behind_what_a_fresh_line_writes_stay() {
    let mut random = Random::seeded();
    for entries in 0..40 {
        let rules = any_rules(&mut random);
        let table = busy_table(&mut random, rules, entries);
        let case = Case::under(&table, rules);
        // A byte that is written is the same in both rooms, and no other is.
        let before = filled(case.enough());
        let rooms = [before.clone(), before.iter().map(|byte| !byte).collect()];
        let after = rooms.clone().map(|mut room: Vec<u8>| {
            let table = Table::of(&table).under(rules);
            let answer = table.queue_init(&mut room[..]);
            assert!(answer.is_ok());
            room
        });
        let mut both = after[0].iter().zip(&after[1]);
        let part = both
            .rposition(|(one, other)| one == other)
            .map_or(0, |at| at + 1);
        assert!(part <= case.least);
        for (room, filled) in after.iter().zip(&rooms) {
            assert_eq!(room[part..], filled[part..]);
        }
    }
}

/// Rooms in which every two bytes are changed, in small tables.
#[test]
fn rooms_with_any_two_bytes() {
    for (table, kind) in [
        (&b"* * * * * a\n@reboot b\n"[..], 0),
        (b"* * * * * a\n0 * * * * b\n@reboot c\n", 0),
        (b"* * * * * u a\n@reboot u b\n", 1),
    ] {
        let case = Case::under(table, kind);
        let mut line = Compared::fresh(&case, case.least);
        for minute in [None, Some(1), Some(0)] {
            if let Some(minute) = minute {
                let _ = line.tick(&case, case.least, minute);
            }
            for first in 0..case.least {
                for second in first..case.least {
                    for [one, other] in [
                        [0, 0],
                        [0, 1],
                        [1, 0],
                        [1, 1],
                        [2, 1],
                        [3, 2],
                        [4, 255],
                        [255, 255],
                    ] {
                        let mut room = line.room.clone();
                        room[first] = one;
                        room[second] = other;
                        let _ = judge(&case, &room, 60);
                    }
                }
            }
        }
    }
}
