//! Where no record is bad: too many entries, a text that is too long, a buffer that is too short.

use differential::records::Compared;
use eremothyn::Answer;
use reference::random::Random;
use reference::table::normal::samples as tables;
use reference::table::records::compiled;
use reference::table::records::samples::record;
use reference::table::{ENTRIES, LINE_BYTES, TABLE_BYTES};

const TOO_MANY: Answer = Err(12);
const TOO_SHORT: Answer = Err(18);
const TOO_LONG: Answer = Err(21);
const UNKNOWN: Answer = Err(23);

fn answer(records: &[u8]) -> Answer {
    let compared = Compared::of(records);
    compared.decompile_into_all();
    compared.decompile_whole()
}

/// An `@reboot` record whose line has so many bytes.
fn boot(length: usize) -> Vec<u8> {
    record(2, &vec![b'x'; length - "@reboot ".len()])
}

/// A setting whose line has so many bytes, with quotes or without.
fn setting(length: usize, is_quoted: bool) -> Vec<u8> {
    let (first, quotes) = if is_quoted { (b' ', 2) } else { (b'x', 0) };
    let mut value = vec![b'x'; length - "A=".len() - quotes];
    value[0] = first;
    record(3, &[b"\x01\0A", &value[..]].concat())
}

#[test]
fn lines_about_as_long_as_may_be() {
    let sets = [&[1, 0, 0, 0, 0, 0, 0, 0, 1, 0, 0, 0, 2, 0, 0, 0, 2, 0, 1, 0][..]];
    for length in LINE_BYTES - 2..=LINE_BYTES + 2 {
        let fits = match length <= LINE_BYTES {
            true => Ok(length as u64 + 1),
            false => TOO_LONG,
        };
        let timed = [sets[0], &vec![b'x'; length - "0 0 1 1 0 ".len()]].concat();
        let records = [
            boot(length),
            setting(length, false),
            setting(length, true),
            record(1, &timed),
        ];
        for one in records {
            assert_eq!(answer(&one), fits);
        }
    }
    // As long a body as there can be is no fault of its record.
    for (kind, body) in [
        (1, [sets[0], &[b'x'; 65_513]].concat()),
        (2, vec![b'x'; 65_533]),
        (3, [&[1, 0, b'A'][..], &[b'x'; 65_530]].concat()),
        (3, [&[0xfb, 0xff][..], &[b'A'; 65_531]].concat()),
    ] {
        let records = record(kind, &body);
        assert_eq!(answer(&records), TOO_LONG);
        assert_eq!(Compared::of(&records).fault, 0);
    }
}

/// 12 before 21 before 18, and any bad record before them, wherever it stands.
#[test]
fn the_order_of_refusals() {
    let [short, long] = [9, LINE_BYTES + 1].map(boot);
    let bad = record(5, b"");
    let rows = [
        (short.repeat(ENTRIES), Ok(10 * ENTRIES as u64)),
        (short.repeat(ENTRIES + 1), TOO_MANY),
        (long.repeat(ENTRIES + 1), TOO_MANY),
        ([long.clone(), short.repeat(ENTRIES)].concat(), TOO_MANY),
        ([long.clone(), short.repeat(ENTRIES - 1)].concat(), TOO_LONG),
        ([short.repeat(ENTRIES + 1), bad.clone()].concat(), UNKNOWN),
        ([bad, long.repeat(ENTRIES + 1)].concat(), UNKNOWN),
        (
            [setting(9, false).repeat(ENTRIES + 1), short.clone()].concat(),
            Ok(10 * (ENTRIES as u64 + 2)),
        ),
    ];
    for (records, expected) in rows {
        assert_eq!(answer(&records), expected);
        let compared = Compared::of(&records);
        let without = compared.decompile(0);
        assert_eq!(without, expected.and(TOO_SHORT));
    }
    let timed = record(1, b"\x01\0\0\0\0\0\0\0\x01\0\0\0\x02\0\0\0\x02\0\x01\0a");
    let both = [timed.repeat(ENTRIES / 2), short.repeat(ENTRIES / 2)].concat();
    assert!(answer(&both).is_ok());
    assert_eq!(answer(&[both, timed].concat()), TOO_MANY);
}

/// Texts about as long as a table may be.
#[test]
fn texts_about_as_long_as_may_be() {
    let line = boot(LINE_BYTES);
    for last in 100..=104 {
        let records = [line.repeat(49), boot(last)].concat();
        let length = 49 * (LINE_BYTES + 1) + last + 1;
        let expected = match length <= TABLE_BYTES {
            true => Ok(length as u64),
            false => TOO_LONG,
        };
        assert_eq!(answer(&records), expected, "{length}");
    }
    // Three bytes for a setting: with one more, the text is too long.
    let settings = record(3, b"\x01\0A").repeat(TABLE_BYTES / 3);
    assert_eq!(answer(&settings), Ok(TABLE_BYTES as u64));
    let more = [&settings[..], &record(3, b"\x01\0A")].concat();
    assert_eq!(answer(&more), TOO_LONG);
    assert_eq!(answer(&settings.repeat(10)), TOO_LONG);
}

/// Buffers of every length about the exact one, of long texts.
#[test]
fn buffers_about_the_exact_length() {
    let mut random = Random::seeded();
    for length in (0..TABLE_BYTES).step_by(1_500).chain([TABLE_BYTES]) {
        let table = tables::table_written_in(&mut random, length.max(300));
        let records = compiled(&table).expect("a text that fits");
        let compared = Compared::of(&records);
        let exact = compared.text.as_ref().map_or(0, Vec::len);
        for length in exact - 3..=exact + 3 {
            let _ = compared.decompile(length);
        }
    }
}
