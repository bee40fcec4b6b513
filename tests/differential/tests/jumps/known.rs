//! The ticket sentence by sentence, by rows that were worked out by hand.

use crate::{emptied, marked};
use differential::queue::Case;
use differential::samples::of_kind;
use reference::queue::known::{Row, LOCAL, LOCAL_ROWS, ROWS, RUN, TABLE};
use reference::queue::room;
use reference::table::Kind;

/// The mark in a room's bytes.
fn mark_in(room: &[u8]) -> Option<u64> {
    let bytes = room[room::MARK..room::COUNT]
        .try_into()
        .expect("four bytes");
    u64::from(u32::from_le_bytes(bytes)).checked_sub(1)
}

/// Each announcement: who joins, how many are answered, and the mark.
fn rows(table: &str, rows: &[Row]) {
    for kind in Kind::BOTH {
        let table = of_kind(table, kind);
        let case = Case::under(table.as_bytes(), kind);
        for &(mark, minute, joined, after) in rows {
            let mut line = marked(&case, mark);
            assert_eq!(mark_in(&line.room), mark);
            let answer = line.tick(&case, case.enough(), minute);
            assert_eq!(answer, Ok(joined.len() as u64), "{mark:?}, {minute}");
            assert_eq!(mark_in(&line.room), Some(after), "{mark:?}, {minute}");
            assert_eq!(emptied(&mut line, &case), joined, "{mark:?}, {minute}");
        }
    }
}

#[test]
fn the_ticket_sentence_by_sentence() {
    rows(TABLE, &ROWS);
}

#[test]
fn by_local_clocks() {
    rows(LOCAL, &LOCAL_ROWS);
}

#[test]
fn the_known_run() {
    for kind in Kind::BOTH {
        let table = of_kind(TABLE, kind);
        let case = Case::under(table.as_bytes(), kind);
        let mut line = marked(&case, None);
        for (minute, joined, mark) in RUN {
            let answer = line.tick(&case, case.enough(), minute);
            assert_eq!(answer, Ok(joined.len() as u64), "{minute}");
            assert_eq!(mark_in(&line.room), Some(mark), "{minute}");
            assert_eq!(emptied(&mut line, &case), joined, "{minute}");
        }
    }
}

/// A fixed entry that is due at each minute of a span joins once, and not while it waits.
#[test]
fn caught_up_once() {
    let case = Case::of(b"0-59 0-23 * * * a\n0,10,20 0-5 * * * b\n");
    let room = case.enough();
    let mut line = marked(&case, Some(0));
    assert_eq!(line.tick(&case, room, 180), Ok(2));
    assert_eq!(line.tick(&case, room, 360), Ok(0));
    assert_eq!(line.pop(&case, room), Ok(Some(0)));
    assert_eq!(line.tick(&case, room, 380), Ok(1));
    assert_eq!(emptied(&mut line, &case), [1, 0]);
    // What was caught up isn't caught up again.
    assert_eq!(line.tick(&case, room, 380), Ok(0));
    assert_eq!(line.tick(&case, room, 381), Ok(1));
    assert_eq!(emptied(&mut line, &case), [0]);
}

/// An entry that waits while its minutes pass isn't caught up later.
#[test]
fn what_waited_is_not_caught_up() {
    let case = Case::of(b"30 2 * * * a\n");
    let room = case.enough();
    let mut line = marked(&case, Some(149));
    assert_eq!(line.tick(&case, room, 150), Ok(1));
    assert_eq!(line.tick(&case, room, 300), Ok(0));
    assert_eq!(emptied(&mut line, &case), [0]);
    assert_eq!(line.tick(&case, room, 301), Ok(0));
}

/// Which fields make an entry fixed: all are due at 02:30 and none at 03:01, and after a mark at 01:00 the fixed ones join.
#[test]
fn who_is_fixed() {
    let rows = [
        ("30 2 * * *", true),
        ("0-59 2 * * *", true),
        ("30 0-23 * * *", true),
        ("30 02 1-31 1-12 0-7", true),
        ("30,31-40/3 2,4 */1 */1 */1", true),
        ("* 2 * * *", false),
        ("*/30 2 * * *", false),
        ("30 * * * *", false),
        ("30 */2 * * *", false),
        ("*/1 2 * * *", false),
        ("30 */1 * * *", false),
    ];
    for (fields, is_fixed) in rows {
        for kind in Kind::BOTH {
            let table = of_kind(&format!(" \t{fields} ~a\n"), kind);
            let case = Case::under(table.as_bytes(), kind);
            let mut line = marked(&case, Some(60));
            let answer = line.tick(&case, case.enough(), 181);
            assert_eq!(answer, Ok(u64::from(is_fixed)), "{fields}");
            let mut line = marked(&case, Some(60));
            assert_eq!(line.tick(&case, case.enough(), 150), Ok(1), "{fields}");
        }
    }
}

/// The `@` words are their fields: at midnight of a 1 January on a Sunday, 1978, all are due.
#[test]
fn words() {
    const MIDNIGHT: u64 = 4_207_680;
    let table = b"@yearly a\n@annually b\n@monthly c\n@weekly d\n@daily e\n@midnight f\n@hourly g\n@reboot h\n";
    let case = Case::of(table);
    let room = case.enough();
    let mut line = marked(&case, Some(MIDNIGHT - 1));
    assert_eq!(line.tick(&case, room, MIDNIGHT), Ok(7));
    let mut line = marked(&case, Some(MIDNIGHT - 1));
    assert_eq!(line.tick(&case, room, MIDNIGHT + 1), Ok(6));
    assert_eq!(emptied(&mut line, &case), [0, 1, 2, 3, 4, 5]);
    assert_eq!(line.tick(&case, room, MIDNIGHT), Ok(1));
    assert_eq!(emptied(&mut line, &case), [6]);
}
