//! Rooms about the least, the bytes behind a line, and refusals in their order. A refused call changes no byte.

use crate::{enough, line};
use differential::queue::{judge, Case};
use differential::samples::{alike, any_rules, busy_table};
use eremothyn::{Answer, Table};
use guard::{filled, Guarded};
use reference::queue::room;
use reference::random::Random;
use reference::table::{Kind, ENTRIES};

/// The room must hold all entries of either table, whoever waits.
#[test]
fn rooms_about_the_least() {
    for (fewer, more) in [(0, 1), (1, 2), (2, 20), (128, 129), (3, ENTRIES)] {
        let [fewer, more] = [fewer, more].map(|count| alike(Kind::User, "@hourly", count));
        let [fewer, more] = [&fewer, &more].map(|table| Case::of(table));
        for (old, new) in [(&fewer, &more), (&more, &fewer), (&more, &more)] {
            let least = old.least.max(new.least);
            assert_eq!(least, more.least);
            let waiting: Vec<u64> = (0..old.count().min(2) as u64).rev().collect();
            for length in least.saturating_sub(3)..least + 4 {
                let mut line = line(&waiting, Some(7), enough(old, new) + 9);
                let kept = waiting.iter().filter(|&&entry| entry < new.count() as u64);
                let expected = match length < least {
                    true => Err(28),
                    false => Ok(kept.count() as u64),
                };
                assert_eq!(line.reload(old, new, length), expected, "{length}");
            }
        }
    }
}

/// What those who left had stood in, and all behind it, stays.
#[test]
fn bytes_behind_the_line_stay() {
    let old = Case::of(b"@daily a\n@daily b\n@daily c\n");
    let new = Case::of(b"@daily c\n");
    let length = old.enough();
    let mut line = line(&[1, 2, 0], Some(0x0102_0304), length);
    let before = line.room.clone();
    assert_eq!(line.reload(&old, &new, length), Ok(1));
    let end = room::NUMBERS + 2;
    assert_eq!(line.room[..room::COUNT], before[..room::COUNT]);
    assert_eq!(line.room[room::COUNT..end], [1, 0, 0, 0]);
    assert_eq!(line.room[end..], before[end..]);
    assert_eq!(before[end..end + 4], [2, 0, 0, 0]);
}

/// The same table, in bytes of its own: nothing changes, whatever waits and whatever stands behind.
#[test]
fn the_same_table_changes_no_byte() {
    let mut random = Random::seeded();
    for _ in 0..300 {
        let rules = any_rules(&mut random);
        let entries = random.below(12);
        let table = busy_table(&mut random, rules, entries);
        let (one, other) = (Case::under(&table, rules), Case::under(&table, rules));
        let first = random.below(entries + 1);
        let waiting: Vec<u64> = (first..entries).rev().collect();
        let length = one.least + random.below(20) as usize;
        let mut line = line(&waiting, Some(random.below(9_999)), length);
        let before = line.room.clone();
        let answer = line.reload(&one, &other, length);
        assert_eq!(answer, Ok(waiting.len() as u64));
        assert_eq!(line.room, before);
    }
}

const GOOD: &[u8] = b"@daily a b\n@reboot c d\n";

const BAD: [(&[u8], u64); 5] = [
    (b"60 * * * * a b\n", 6),
    (b"@daily a b", 26),
    (b"\x01\n", 27),
    (b"A\n", 11),
    (&[b'\n'; 49_153], 1),
];

/// The answer of a reload in a room, which stays as it is where that is a refusal.
fn reload(kind: u64, old: &[u8], new: &[u8], room: &[u8]) -> Answer {
    let [old, new] = [old, new].map(Guarded::read_only);
    let [old, new] = [&old, &new].map(|table| Table::of(table).under(kind));
    let mut after = room.to_vec();
    let answer = Guarded::lend(&mut after, |room| old.queue_reload(new, room));
    if answer.is_err() {
        assert_eq!(after, room);
    }
    answer
}

/// The old table's refusal, the new table's, 28.
#[test]
fn refusals_in_their_order() {
    let fresh = line(&[1], None, Case::of(GOOD).enough()).room;
    let rooms = [fresh.clone(), filled(fresh.len()), Vec::new()];
    for kind in [0, 1] {
        for room in &rooms {
            for (old, number) in BAD {
                assert_eq!(reload(kind, old, GOOD, room), Err(number));
                for (new, _) in BAD {
                    assert_eq!(reload(kind, old, new, room), Err(number));
                }
                assert_eq!(reload(kind, GOOD, old, room), Err(number));
            }
        }
        assert_eq!(reload(kind, GOOD, GOOD, &rooms[0]), Ok(1));
        assert_eq!(reload(kind, GOOD, GOOD, &rooms[1]), Err(28));
        assert_eq!(reload(kind, GOOD, GOOD, &rooms[2]), Err(28));
        // Nobody of the old table has the number 1, though the new one has.
        let one = reload(kind, b"@daily a b\n", GOOD, &rooms[0]);
        assert_eq!(one, Err(28));
    }
}

/// A line of the old table is asked for: damaged ones are refused, as by every other call.
#[test]
fn rooms_that_are_no_line() {
    let case = Case::of(GOOD);
    let good = line(&[1, 0], Some(7), case.least).room;
    for at in 0..case.least {
        for byte in [0, 1, 2, 3, 0x7f, 0xff] {
            let mut room = good.clone();
            room[at] = byte;
            let _ = judge(&case, &room, 7);
        }
    }
}
