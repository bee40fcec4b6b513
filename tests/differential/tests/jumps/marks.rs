//! Marks at the calendar's ends and off it, rooms that are no line, and refused calls, which leave the mark.

use crate::marked;
use differential::queue::{judge, refused, refuses, Case, Compared};
use reference::calendar::LAST_MINUTE;
use reference::queue::{room, Queue};

const MINUTES: [u64; 6] = [0, 1, 180, LAST_MINUTE, LAST_MINUTE + 1, u64::MAX];

/// A line whose bytes at a place are others.
fn with(case: &Case, at: usize, bytes: &[u8]) -> Vec<u8> {
    let mut room = marked(case, Some(7)).room;
    room[at..at + bytes.len()].copy_from_slice(bytes);
    room
}

#[test]
fn marks_off_the_calendar_are_refused() {
    const LAST: u32 = LAST_MINUTE as u32;
    for table in ["", "* * * * * a\n30 2 * * * b\n@reboot c\n"] {
        let case = Case::of(table.as_bytes());
        let at = room::MARK;
        for number in [0, 1, 2, LAST, LAST + 1] {
            let room = with(&case, at, &number.to_le_bytes());
            for minute in [0, 1, LAST_MINUTE] {
                assert!(judge(&case, &room, minute), "{number}");
            }
        }
        for number in [LAST + 2, LAST + 3, u32::MAX - 1, u32::MAX] {
            let room = with(&case, at, &number.to_le_bytes());
            refuses(&case, &room, &MINUTES);
        }
    }
}

#[test]
fn marks_at_the_ends() {
    let case = Case::of(b"* * * * * a\n0 0 * * * b\n59 23 * * * c\n");
    for mark in [
        0,
        1,
        179,
        180,
        181,
        LAST_MINUTE - 180,
        LAST_MINUTE - 1,
        LAST_MINUTE,
    ] {
        for minute in [
            0,
            1,
            179,
            180,
            181,
            LAST_MINUTE - 181,
            LAST_MINUTE - 1,
            LAST_MINUTE,
        ] {
            let mut line = marked(&case, Some(mark));
            let _ = line.tick(&case, case.enough(), minute);
            line.assert_waiting(&case);
        }
    }
}

#[test]
fn other_formats_are_refused() {
    let case = Case::of(b"* * * * * a\n@reboot b\n");
    assert!(judge(&case, &with(&case, 0, b"ERQ1"), 7));
    for format in [b"ERQ0", b"ERQ2", b"1QRE", b"erq1", b"\0\0\0\0", b"RQ1E"] {
        refuses(&case, &with(&case, 0, format), &MINUTES);
    }
    for at in 0..4 {
        for bit in 0..8 {
            let mut room = with(&case, 0, b"ERQ1");
            room[at] ^= 1 << bit;
            refuses(&case, &room, &MINUTES);
        }
    }
}

/// Bytes that were never made a line, and lines of the form before this ticket's: a count and entry numbers.
#[test]
fn zeros_and_stray_bytes_are_refused() {
    for table in ["", "* * * * * a\n", "@reboot a\n0 0 * * * b\n@reboot c\n"] {
        let case = Case::of(table.as_bytes());
        for length in [case.least, case.enough(), 1_000] {
            for byte in [0, 1, 0x20, 0x7f, 0x80, 0xff] {
                refuses(&case, &vec![byte; length], &MINUTES);
            }
            let text: Vec<u8> = b"30 2 * * * dome check\n"
                .iter()
                .copied()
                .cycle()
                .take(length)
                .collect();
            refuses(&case, &text, &MINUTES);
            for count in 0..=case.count() as u8 {
                let mut room = vec![0; length];
                room[0] = count;
                for entry in 0..count {
                    room[2 + 2 * usize::from(entry)] = entry;
                }
                refuses(&case, &room, &MINUTES);
            }
        }
    }
}

/// A fresh line has no mark, whatever stood in the room: each of these would hold the entry back, or is none.
#[test]
fn a_fresh_line_has_no_mark() {
    let case = Case::of(b"30 2 * * * a\n");
    let rooms = [
        marked(&case, Some(150)).room,
        marked(&case, Some(151)).room,
        vec![0; case.enough()],
        vec![0xff; case.enough()],
    ];
    for room in rooms {
        let mut line = Compared {
            room,
            queue: Queue::default(),
        };
        assert_eq!(line.init(&case, case.enough()), Ok(0));
        assert_eq!(line.queue.mark, None);
        assert_eq!(line.tick(&case, case.enough(), 150), Ok(1));
    }
}

/// Refusals by the table, by too little room and by a minute off the calendar, in any order and number: the line goes on with
/// its mark.
#[test]
fn a_refused_call_leaves_the_mark() {
    let case = Case::of(b"* * * * * a\n30 2 * * * b\n");
    let room = case.enough();
    let mut line = marked(&case, Some(149));
    for minute in [LAST_MINUTE + 1, 1 << 32, (1 << 32) + 150, u64::MAX] {
        assert_eq!(line.tick(&case, room, minute), Err(14));
    }
    for minute in [0, 150, 151, u64::MAX] {
        assert_eq!(line.tick(&case, case.least - 1, minute), Err(28));
        refused(b"60 * * * * a", 0, 6, &line.room, minute);
    }
    assert_eq!(line.pop(&case, case.least - 1), Err(28));
    assert_eq!(line.init(&case, case.least - 1), Err(28));
    assert_eq!(line.pop(&case, room), Ok(None));
    assert_eq!(line.queue.mark, Some(149));
    // So the entry is caught up, once.
    assert_eq!(line.tick(&case, room, 200), Ok(2));
    assert_eq!(line.tick(&case, room, 150), Ok(0));
}
