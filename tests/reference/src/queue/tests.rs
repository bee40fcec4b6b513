use super::known::{Row, LOCAL, LOCAL_ROWS, ROWS, RUN, TABLE};
use super::*;
use crate::calendar::minute_of;
use crate::table::{read, Kind};

#[test]
fn the_whole_run() {
    let user = "* * * * * a\n@reboot b\n0 * * * * c\n";
    let system = "* * * * * r a\n@reboot r:s b\n0 * * * * r/t c\n";
    for (bytes, kind) in [(user, Kind::User), (system, Kind::System)] {
        let table = read(bytes.as_bytes(), kind).expect("a good table");
        let mut queue = Queue::fresh(&table);
        assert_eq!(queue.pop(&table), Ok(Some(1)));
        assert_eq!(queue.tick(&table, 59), Ok(1));
        assert_eq!(queue.tick(&table, 60), Ok(1));
        assert_eq!(queue.pop(&table), Ok(Some(0)));
        assert_eq!(queue.pop(&table), Ok(Some(2)));
        assert_eq!(queue.pop(&table), Ok(None));
    }
}

#[test]
fn lines_that_are_none_of_the_table() {
    let table = read(b"* * * * * a\n@reboot b\n", Kind::User).expect("a good table");
    let rows: [(&[u64], Option<u64>, bool); 10] = [
        (&[], None, true),
        (&[1, 0], None, true),
        (&[1, 0], Some(0), true),
        (&[1, 0], Some(LAST_MINUTE), true),
        (&[1, 0], Some(LAST_MINUTE + 1), false),
        (&[], Some(u64::MAX), false),
        (&[1, 1], None, false),
        (&[2], Some(7), false),
        (&[0, 1, 0], None, false),
        (&[1 << 32], None, false),
    ];
    for (waiting, mark, good) in rows {
        let line = Queue {
            waiting: waiting.to_vec(),
            mark,
        };
        for minute in [0, LAST_MINUTE + 1] {
            let mut queue = line.clone();
            let refused = queue.tick(&table, minute) == Err(NO_LINE);
            assert_eq!(refused, !good, "{line:?} at {minute}");
        }
        assert_eq!(line.clone().pop(&table).is_ok(), good, "{line:?}");
    }
    let mut queue = Queue::fresh(&table);
    assert_eq!(queue.tick(&table, LAST_MINUTE + 1), Err(NOT_ON_CALENDAR));
}

/// Each row from a line with that mark on which nothing waits.
fn rows(table: &str, rows: &[Row]) {
    let table = table.replace('~', "");
    let table = read(table.as_bytes(), Kind::User).expect("a good table");
    for &(mark, minute, joined, after) in rows {
        let mut queue = Queue {
            waiting: Vec::new(),
            mark,
        };
        let answer = queue.tick(&table, minute);
        assert_eq!(answer, Ok(joined.len() as u64), "{mark:?}, {minute}");
        assert_eq!(queue.waiting, joined, "{mark:?}, {minute}");
        assert_eq!(queue.mark, Some(after), "{mark:?}, {minute}");
    }
}

#[test]
fn the_ticket_sentence_by_sentence() {
    rows(TABLE, &ROWS);
    rows(LOCAL, &LOCAL_ROWS);
}

#[test]
fn the_known_run() {
    let table = TABLE.replace('~', "");
    let table = read(table.as_bytes(), Kind::User).expect("a good table");
    let mut queue = Queue::fresh(&table);
    for (minute, joined, mark) in RUN {
        queue.waiting.clear();
        assert_eq!(queue.tick(&table, minute), Ok(joined.len() as u64));
        assert_eq!(queue.waiting, joined, "{minute}");
        assert_eq!(queue.mark, Some(mark), "{minute}");
    }
    assert_eq!(minute_of(2026, 11, 15, 2, 30), Some(RUN[14].0));
}

#[test]
fn a_refused_call_leaves_the_mark() {
    let table = read(b"* * * * * a\n", Kind::User).expect("a good table");
    let mut queue = Queue::fresh(&table);
    assert_eq!(queue.tick(&table, 7), Ok(1));
    assert_eq!(queue.tick(&table, LAST_MINUTE + 1), Err(NOT_ON_CALENDAR));
    assert_eq!(queue.mark, Some(7));
}

/// Lines and their bytes.
#[test]
fn lines_in_rooms() {
    let rows: [(&[u64], Option<u64>, &[u8]); 4] = [
        (&[], None, b"ERQ1\0\0\0\0\0\0"),
        (&[2, 0], Some(0), b"ERQ1\x01\0\0\0\x02\0\x02\0\0\0"),
        (&[1], Some(0x0102_0304), b"ERQ1\x05\x03\x02\x01\x01\0\x01\0"),
        // The number of the last minute and 1 is fbbb89a0 in hexadecimal.
        (&[], Some(LAST_MINUTE), b"ERQ1\xa0\x89\xbb\xfb\0\0"),
    ];
    for (waiting, mark, bytes) in rows {
        let queue = Queue {
            waiting: waiting.to_vec(),
            mark,
        };
        let mut room = vec![0xaa; 20];
        queue.lay(&mut room);
        let (front, behind) = room.split_at(bytes.len());
        assert_eq!(front, bytes);
        assert!(behind.iter().all(|&byte| byte == 0xaa));
        assert_eq!(Queue::in_room(&room, 3), Some(queue));
    }
}

/// Rooms that are no line of a table with two entries.
#[test]
fn rooms_without_a_line() {
    let good = b"ERQ1\xa0\x89\xbb\xfb\x02\0\x01\0\0\0";
    assert!(Queue::in_room(good, 2).is_some());
    assert!(Queue::in_room(&good[..13], 2).is_none());
    // A place, and what stands there instead.
    let rows: [(usize, &[u8]); 10] = [
        (0, b"ERQ0"),
        (0, b"erq1"),
        (0, b"1QRE"),
        (0, b"\0\0\0\0"),
        (4, b"\xa1\x89\xbb\xfb"),
        (4, b"\xff\xff\xff\xff"),
        (8, b"\x03\0"),
        (8, b"\x02\x01"),
        (10, b"\x02\0"),
        (10, b"\0\0"),
    ];
    for (at, bytes) in rows {
        let mut room = good.to_vec();
        room[at..at + bytes.len()].copy_from_slice(bytes);
        assert_eq!(Queue::in_room(&room, 2), None, "{room:?}");
    }
    assert_eq!(Queue::in_room(&[0; 80], 2), None);
    assert_eq!(Queue::in_room(&[], 0), None);
}

/// What is queued after a reload, by hand: moved, gone, of the same meaning, fewer of them, and of another clock.
#[test]
fn reloads() {
    let rows: [(&str, &str, &[u64], &[u64]); 10] = [
        ("@daily a\n@daily b\n", "@daily b\n@daily a\n", &[0], &[1]),
        ("@daily a\n@daily b\n", "0 0 * * * b\n", &[0, 1], &[0]),
        (
            "@daily a\n@daily a\n",
            "@reboot a\n@daily a\n@daily a\n",
            &[1, 0],
            &[2, 1],
        ),
        ("@daily a\n", "CRON_TZ=+01:00\n@daily a\n", &[0], &[]),
        ("@reboot a\n", "CRON_TZ=+01:00\n@reboot a\n", &[0], &[0]),
        ("@daily a\n@daily a\n", "@daily a\n", &[1], &[0]),
        ("@daily a\n@daily a\n", "@daily a\n", &[1, 0], &[0]),
        (
            "@daily a\n@daily a\n@daily a\n",
            "@daily a\n@daily a\n",
            &[2, 0, 1],
            &[1, 0],
        ),
        (
            "@daily a\n@daily b\n@daily a\n",
            "@daily b\n@daily a\n",
            &[2, 1, 0],
            &[1, 0],
        ),
        ("* 0 * * * a\n", "0-59 0 * * * a\n", &[0], &[]),
    ];
    for (old, new, before, after) in rows {
        let [old, new] = [old, new].map(|text| read(text.as_bytes(), Kind::User).expect("good"));
        let mut queue = Queue {
            waiting: before.to_vec(),
            mark: Some(7),
        };
        assert_eq!(queue.reload(&old, &new), Ok(after.len() as u64));
        assert_eq!(queue.waiting, after);
        assert_eq!(queue.mark, Some(7));
        let places = [0, 1, 2].map(|place| queue.entry(&new, place));
        let standing = [0, 1, 2].map(|place| Ok(after.get(place).copied()));
        assert_eq!(places, standing);
    }
    let table = read(b"@daily a\n", Kind::User).expect("good");
    let mut queue = Queue {
        waiting: vec![1],
        mark: None,
    };
    assert_eq!(queue.reload(&table, &table), Err(NO_LINE));
    assert_eq!(queue.entry(&table, 0), Err(NO_LINE));
}
