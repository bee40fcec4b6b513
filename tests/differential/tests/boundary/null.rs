//! A null pointer with length 0 is an empty run of bytes like any other, for every pointer of every function.

use crate::raw::{
    all_numbers, date, decompiled, entry_answers, fit, judged, line_answers, lists, queue_answers,
    split, texts, Place,
};
use differential::queue::Case;
use eremothyn::{Answer, Table, REFUSED};
use guard::Guarded;
use reference::calendar::LAST_MINUTE;
use std::ptr;

const NO_ENTRY: Answer = Err(13);
const TOO_SHORT: Answer = Err(18);
const NO_SETTING: Answer = Err(19);
const NO_LINE: Answer = Err(28);

/// Runs a test with each empty run of bytes: nowhere, and at a guard page.
fn for_each_empty(test: impl Fn(Place)) {
    test(Place(ptr::null_mut(), 0));
    test(Place::of(&Guarded::read_only(b"")));
}

#[test]
fn no_table() {
    for_each_empty(|empty| {
        for numbers in all_numbers() {
            let table = empty.table().under(numbers);
            assert_eq!(judged(table), (Ok(0), 0, 0));
            let mut bytes = [7];
            assert_eq!(texts(table, [empty; 2]), [Ok(0); 2]);
            assert_eq!(texts(table, [Place::of_mut(&mut bytes); 2]), [Ok(0); 2]);
            assert_eq!(bytes, [7]);
            for number in [0, 1, u64::MAX] {
                assert_eq!(entry_answers(table, number), [NO_ENTRY; 12]);
                assert_eq!(line_answers(table, number), [NO_SETTING; 5]);
                assert_eq!(lists(table, number, [empty; 2]), [Err(13), fit(0, false)]);
                let mut bytes = [7];
                for buffer in [empty, Place::of_mut(&mut bytes)] {
                    assert_eq!(split(table, number, buffer, empty), NO_ENTRY);
                    assert_eq!(split(table, number, empty, buffer), NO_ENTRY);
                }
                assert_eq!(bytes, [7]);
            }
        }
    });
}

#[test]
fn no_buffer() {
    let user = b"@daily a%b\n@daily a\n@daily a%\n@daily %\n@daily %b\n";
    let system = b"@daily u a%b\n@daily u a\n@daily u a%\n@daily u %\n@daily u %b\n";
    let [user, system] = [&user[..], system].map(Guarded::read_only);
    no_buffer_for(Place::of(&user).table());
    no_buffer_for(Place::of(&system).table().under(1));
}

fn no_buffer_for(table: Table) {
    // The answers with no buffer for the shell line, with none for the input, and with neither.
    let rows = [
        (0, [TOO_SHORT, TOO_SHORT, TOO_SHORT]),
        (1, [TOO_SHORT, Ok(1), TOO_SHORT]),
        (2, [TOO_SHORT, Ok(1), TOO_SHORT]),
        (3, [Ok(0), Ok(0), Ok(0)]),
        (4, [Ok(0), TOO_SHORT, TOO_SHORT]),
        (5, [NO_ENTRY, NO_ENTRY, NO_ENTRY]),
    ];
    for_each_empty(|empty| {
        for (entry, answers) in rows {
            let mut byte = [7];
            let some = Place::of_mut(&mut byte);
            let pairs = [(empty, some), (some, empty), (empty, empty)];
            let found = pairs.map(|(shell, input)| split(table, entry, shell, input));
            assert_eq!(found, answers, "entry {entry}");
        }
    });
}

/// No run for the minutes, none for the entries, and neither; the other has a place.
#[test]
fn no_run() {
    // Each minute, at boot, never; in both kinds.
    let rows: [(&[u8], [Result<_, u64>; 2]); 3] = [
        (b"* * * * * a b\n", [fit(0, true), fit(0, true)]),
        (b"@reboot a b\n", [Err(15), fit(0, false)]),
        (b"0 0 30 2 * a b\n", [fit(0, false), fit(0, false)]),
    ];
    for_each_empty(|empty| {
        for (table, answers) in rows {
            let table = Guarded::read_only(table);
            for numbers in all_numbers() {
                let table = Place::of(&table).table().under(numbers);
                assert_eq!(lists(table, 0, [empty; 2]), answers);
                let mut minutes = [7u32];
                let some = Place(minutes.as_mut_ptr().cast(), 1);
                assert_eq!(lists(table, 0, [some, empty])[1], answers[1]);
                let mut entries = [7u16];
                let some = Place(entries.as_mut_ptr().cast(), 1);
                assert_eq!(lists(table, 0, [empty, some]), answers);
                assert_eq!(entries, [7]);
            }
        }
    });
}

#[test]
fn no_buffer_for_a_text() {
    // With nothing to write there is nothing to write to.
    let rows: [(&[u8], Answer); 9] = [
        (b"#\n", Ok(0)),
        (b"\n \n", Ok(0)),
        (b"a=\n", TOO_SHORT),
        (b"@reboot a\n", TOO_SHORT),
        (b"* * * * * a\n", TOO_SHORT),
        (b"a", Err(11)),
        (b"# a\0", Err(3)),
        (b"#", Err(26)),
        (b"#\r\n", Err(27)),
    ];
    for_each_empty(|empty| {
        for (table, answer) in rows {
            let table = Guarded::read_only(table);
            let table = Place::of(&table).table();
            assert_eq!(texts(table, [empty; 2]), [answer; 2]);
        }
    });
}

#[test]
fn no_records_and_no_buffer_for_their_text() {
    let rows: [(&[u8], Answer, u64); 6] = [
        (b"", Ok(0), 0),
        (b"\x02\0\0\x80", Ok(0), 0),
        (b"\x03\0\x02\0a", TOO_SHORT, 0),
        (b"\x05\0\x03\0\x01\0a", TOO_SHORT, 0),
        (b"\x02\0\x02\0", Err(24), 1),
        (b"\0", Err(22), 1),
    ];
    for_each_empty(|empty| {
        let mut bytes = [7];
        assert_eq!(decompiled(empty, Place::of_mut(&mut bytes)), (Ok(0), 0));
        assert_eq!(bytes, [7]);
        assert_eq!(decompiled(empty, empty), (Ok(0), 0));
        for (records, answer, fault) in rows {
            let records = Guarded::read_only(records);
            assert_eq!(decompiled(Place::of(&records), empty), (answer, fault));
        }
    });
}

#[test]
fn no_room() {
    // An entry in both kinds.
    let entry = Guarded::read_only(b"@reboot a b\n");
    let entry = Place::of(&entry).table();
    let least = Case::of(b"").least;
    for_each_empty(|empty| {
        for numbers in all_numbers() {
            assert_eq!(queue_answers(entry.under(numbers), empty), [NO_LINE; 5]);
            // A table without entries has a line, too, and its mark needs room.
            let table = empty.table().under(numbers);
            let mut room = vec![7; least];
            let answers = queue_answers(table, Place::of_mut(&mut room));
            let none = Ok(REFUSED);
            assert_eq!(answers, [Ok(0), Ok(0), none, Ok(0), none]);
            assert_eq!(queue_answers(table, empty), [NO_LINE; 5]);
        }
    });
}

/// A reload from no table to one, and back.
#[test]
fn no_table_before_or_after() {
    let entry = Guarded::read_only(b"@reboot a b\n");
    let entry = Place::of(&entry).table();
    for_each_empty(|empty| {
        for numbers in all_numbers() {
            let none = empty.table().under(numbers);
            let some = entry.under(numbers);
            let mut room = vec![7; 100];
            let place = Place::of_mut(&mut room);
            assert_eq!(none.queue_init(place.run()), Ok(0));
            assert_eq!(none.queue_reload(some, place.run()), Ok(0));
            assert_eq!(some.queue_init(place.run()), Ok(1));
            assert_eq!(some.queue_reload(some, place.run()), Ok(1));
            assert_eq!(some.queue_reload(none, place.run()), Ok(0));
            assert_eq!(none.queue_reload(none, place.run()), Ok(0));
            for (old, new) in [(none, none), (none, some), (some, none)] {
                assert_eq!(old.queue_reload(new, empty.run()), NO_LINE);
            }
        }
    });
}

#[test]
fn no_run_for_a_date() {
    for_each_empty(|empty| {
        assert_eq!(date(0, empty), TOO_SHORT);
        assert_eq!(date(LAST_MINUTE, empty), TOO_SHORT);
        assert_eq!(date(LAST_MINUTE + 1, empty), Err(14));
        assert_eq!(date(u64::MAX, empty), Err(14));
    });
}
