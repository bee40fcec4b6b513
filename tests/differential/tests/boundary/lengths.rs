//! Lent lengths that are 0, or little, in their low 8, 16 or 32 bits.

use crate::raw::{
    all_numbers, date, decompiled, entry_answers, fit, judged, line_answers, lists, queue_answers,
    split, texts, Place,
};
use differential::queue::{Case, Compared as Line};
use differential::records;
use differential::table::Compared;
use eremothyn::Answer;
use guard::{Vast, VAST};
use reference::table::records::compiled;

const TOO_LONG: Answer = Err(1);
const TABLE: &[u8] = b"@reboot a%b\n* * * * * c\nd=e\n";
const SYSTEM_TABLE: &[u8] = b"@reboot u a%b\n* * * * * u:g/l c\nd=e\n";

#[test]
fn many_bytes() {
    for (table, kind) in [(TABLE, 0), (SYSTEM_TABLE, 1)] {
        many_bytes_of(table, kind);
    }
}

fn many_bytes_of(table: &[u8], kind: u64) {
    let compared = Compared::under(table, kind);
    let case = Case::under(table, kind);
    for length in [1 << 8, 1 << 16, (1 << 16) + 1] {
        for lengths in [[length, 1], [1, length], [length, length]] {
            assert_eq!(compared.split_command(0, lengths), Ok(1));
        }
        // The table is its own text.
        assert_eq!(compared.normal_form(length), Ok(table.len() as u64));
        let records = compared.records().expect("a good table");
        assert_eq!(compared.compile(length), Ok(records.len() as u64));
        let back = records::Compared::of(&records).decompile(length);
        assert_eq!(back, Ok(table.len() as u64));
        let mut line = Line::fresh(&case, length);
        assert_eq!(line.tick(&case, length, 0), Ok(1));
        assert_eq!(line.pop(&case, length), Ok(Some(0)));
        assert_eq!(line.pop(&case, length), Ok(Some(1)));
        assert_eq!(line.pop(&case, length), Ok(None));
    }
}

/// A table is refused by its length alone, before all else.
#[test]
fn vast_tables() {
    let [mut table, mut other] = [TABLE, b""].map(Vast::of);
    let other = Place(other.start(), VAST);
    for length in [VAST - 1, VAST, VAST + TABLE.len() as u64] {
        for numbers in all_numbers() {
            let table = Place(table.start(), length).table().under(numbers);
            assert_eq!(judged(table), (TOO_LONG, 0, 0));
            assert_eq!(entry_answers(table, 0), [TOO_LONG; 12]);
            assert_eq!(line_answers(table, 3), [TOO_LONG; 5]);
            assert_eq!(split(table, 0, other, Place::of(b"")), TOO_LONG);
            assert_eq!(lists(table, 0, [other, Place::of(b"")]), [Err(1); 2]);
            assert_eq!(queue_answers(table, other), [TOO_LONG; 5]);
            let good = Place::of(b"@reboot a b\n").table().under(numbers);
            assert_eq!(good.queue_reload(table, other.run()), TOO_LONG);
            assert_eq!(table.queue_reload(good, other.run()), TOO_LONG);
            assert_eq!(texts(table, [other; 2]), [TOO_LONG; 2]);
            assert_eq!(texts(table, [Place::of(b""); 2]), [TOO_LONG; 2]);
        }
    }
}

/// Only the front of a vast buffer or room is touched.
#[test]
fn vast_buffers_and_rooms() {
    for (bytes, kind, more) in [
        (TABLE, 0, 0),
        (TABLE, 0, 1),
        (SYSTEM_TABLE, 1, 0),
        (SYSTEM_TABLE, 1, 1),
    ] {
        let table = Place::of(bytes).table().under(kind);
        let mut runs = [(); 5].map(|_| Vast::of(b"---"));
        let [shell, input, room, text, records] =
            runs.each_mut().map(|vast| Place(vast.start(), VAST + more));
        let compiled = compiled(bytes).expect("a good table");
        assert_eq!(split(table, 0, shell, input), Ok(1));
        let answers = [Ok(1), Ok(1), Ok(0), Ok(2), Ok(0)];
        assert_eq!(queue_answers(table, room), answers);
        let lengths = [bytes.len(), compiled.len()].map(|length| Ok(length as u64));
        assert_eq!(texts(table, [text, records]), lengths);
        let [shell, input, _, text, records] = &mut runs;
        assert_eq!(shell.page()[..3], *b"a--");
        assert_eq!(input.page()[..3], *b"b--");
        assert_eq!(text.page()[..=bytes.len()], [bytes, b"\0"].concat());
        assert_eq!(
            records.page()[..=compiled.len()],
            [&compiled[..], b"\0"].concat()
        );
    }
}

/// Six numbers of a vast run are touched.
#[test]
fn a_date_in_a_vast_run() {
    for places in [VAST - 1, VAST, VAST + 1] {
        let mut run = Vast::of(&[0x55; 16]);
        assert_eq!(date(0, Place(run.start(), places)), Ok(6));
        let expected = *b"\xb2\x07\x01\0\x01\0\0\0\0\0\x04\0\x55\x55\x55\x55";
        assert_eq!(run.page()[..16], expected);
        assert_eq!(date(u64::MAX, Place(run.start(), places)), Err(14));
        assert_eq!(run.page()[..16], expected);
    }
}

/// Only the front of vast runs is touched, and a length that is little in its low bits isn't cut to them.
#[test]
fn vast_runs() {
    for (bytes, kind) in [(TABLE, 0), (SYSTEM_TABLE, 1)] {
        let table = Place::of(bytes).table().under(kind);
        for places in [VAST - 1, VAST, VAST + 1] {
            let mut runs = [(); 2].map(|_| Vast::of(&[0x55; 16]));
            let [minutes, entries] = runs.each_mut().map(|vast| Place(vast.start(), places));
            // Entry 0 is at boot alone, entry 1 fires every minute.
            assert_eq!(
                lists(table, 0, [minutes, entries]),
                [Err(15), fit(2, false)]
            );
            let [minutes, entries] = runs.each_mut().map(|vast| vast.page());
            assert_eq!(minutes[..12], *b"\x01\0\0\0\x02\0\0\0\x55\x55\x55\x55");
            assert_eq!(entries[..8], *b"\x01\0\x01\0\x55\x55\x55\x55");
            minutes[..12].fill(0x55);
            let [minutes, entries] = runs.each_mut().map(|vast| Place(vast.start(), places));
            // The shorter run counts, whichever it is.
            let one = Place(entries.0, 1);
            assert_eq!(
                lists(table, 1, [minutes, one]),
                [fit(2, false), fit(1, true)]
            );
            let one = Place(minutes.0, 1);
            assert_eq!(lists(table, 1, [one, entries]), [fit(1, true); 2]);
            let [minutes, _] = runs.each_mut().map(|vast| vast.page());
            assert_eq!(minutes[..12], *b"\x01\0\0\0\x02\0\0\0\x55\x55\x55\x55");
        }
    }
}

/// Records of any length are read up to their first bad one: here the first zeros, and behind a good one.
#[test]
fn vast_records() {
    let rows: [(&[u8], u64); 3] = [
        (b"", 1),
        (b"\x03\0\x02\0a", 2),
        (b"\x03\0\x02\0a\x02\0\x01\x80", 3),
    ];
    for (front, fault) in rows {
        let [mut records, mut text] = [front, b"---"].map(Vast::of);
        let to = Place(text.start(), VAST);
        for length in [VAST - 1, VAST, VAST + front.len() as u64] {
            let from = Place(records.start(), length);
            assert_eq!(decompiled(from, to), (Err(22), fault));
        }
        assert_eq!(text.page()[..3], *b"---");
    }
}

/// Only the front of a vast buffer is touched by a text.
#[test]
fn vast_buffers_for_a_text() {
    let records = Place(b"\x03\0\x02\0a".as_ptr().cast_mut(), 5);
    for more in [0, 1] {
        let mut text = Vast::of(b"------------");
        let to = Place(text.start(), VAST + more);
        assert_eq!(decompiled(records, to), (Ok(10), 0));
        assert_eq!(text.page()[..12], *b"@reboot a\n--");
    }
}
