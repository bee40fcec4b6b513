use super::known::{bad_entries, hex, LINES, NO_LINES, RECORDS, REFUSED, TABLE, TEXT};
use super::*;
use crate::random::Random;
use crate::table::normal;
use crate::table::{LINE_BYTES, TABLE_BYTES};

#[test]
fn a_table_by_hand() {
    let records = hex(RECORDS);
    assert_eq!(records.len(), 58);
    assert_eq!(compiled(TABLE.as_bytes()), Ok(records.clone()));
    assert_eq!(compiled(TEXT.as_bytes()), Ok(records.clone()));
    assert_eq!(decompiled(&records), Ok(TEXT.as_bytes().to_vec()));
    assert_eq!(record_fault(&records), 0);
}

#[test]
fn lines_by_hand() {
    for (line, text, record) in LINES {
        let table = format!("{line}\n");
        assert_eq!(compiled(table.as_bytes()), Ok(hex(record)), "{line}");
        let found = decompiled(&hex(record));
        assert_eq!(found.as_deref(), Ok(text.as_bytes()), "{line}");
    }
}

#[test]
fn refused_records_by_hand() {
    for (dump, fault, text) in REFUSED {
        let records = hex(dump);
        assert_eq!(record_fault(&records), fault, "{dump}");
        assert_eq!(decompiled(&records), text.map(Into::into), "{dump}");
    }
}

/// Every place at which the table's records can be cut.
#[test]
fn records_cut_short() {
    let records = hex(RECORDS);
    for (record, lengths) in [(1, 1..16), (2, 17..30), (3, 31..58)] {
        for length in lengths {
            let bad = BadRecord {
                record,
                refusal: 22,
            };
            assert_eq!(lines(&records[..length]), Err(bad), "{length}");
        }
    }
}

#[test]
fn unknown_kinds_are_refused_and_later_ones_skipped() {
    for kind in (0..=u16::MAX).filter(|kind| !(1..=4).contains(kind)) {
        for body in [&b""[..], b"a"] {
            let expected = if kind < 32_768 { Err(23) } else { Ok(vec![]) };
            assert_eq!(decompiled(&samples::record(kind, body)), expected, "{kind}");
        }
    }
}

/// The number of a bad record is the same whatever stands behind it, and counts a skipped one before it.
#[test]
fn records_that_no_line_could_mean() {
    let before = hex("03 00 02 00 61 04 00 00 80 01 02");
    let behind = hex("03 00 02 00 61");
    let others = NO_LINES.iter().map(|dump| hex(dump));
    for bad in bad_entries().into_iter().chain(others) {
        assert_eq!(decompiled(&bad), Err(24), "{bad:02x?}");
        assert_eq!(record_fault(&bad), 1, "{bad:02x?}");
        let third = [&before[..], &bad, &behind].concat();
        assert_eq!(record_fault(&third), 3, "{bad:02x?}");
    }
}

/// A record of kind 2 whose line has so many bytes.
fn boot(length: usize) -> Vec<u8> {
    let command = vec![b'x'; length - "@reboot ".len()];
    let follow = (2 + command.len()) as u16;
    [&follow.to_le_bytes()[..], &[2, 0], &command].concat()
}

/// Only where no record is bad: too many entries, a line or a text that is too long, a buffer too short.
#[test]
fn limits_come_last_and_in_order() {
    let [most, over] = [LINE_BYTES, LINE_BYTES + 1].map(boot);
    assert_eq!(decompiled(&most).map(|text| text.len()), Ok(LINE_BYTES + 1));
    assert_eq!(decompiled(&over), Err(21));
    assert_eq!(decompiled(&boot(65_541)), Err(21));
    let entry = boot(9);
    assert!(decompiled(&entry.repeat(ENTRIES)).is_ok());
    assert_eq!(decompiled(&entry.repeat(ENTRIES + 1)), Err(12));
    assert_eq!(decompiled(&over.repeat(ENTRIES + 1)), Err(12));
    let bad = hex("02 00 05 00");
    let many = [over.repeat(ENTRIES + 1), bad].concat();
    assert_eq!(decompiled(&many), Err(23));
    assert_eq!(record_fault(&many), ENTRIES as u64 + 2);
    // 49 lines of 1,000 bytes and one of 102 are a table's 49,152 with their newlines.
    let full = [most.repeat(49), boot(102)].concat();
    assert_eq!(decompiled(&full).map(|text| text.len()), Ok(TABLE_BYTES));
    assert_eq!(decompiled(&[most.repeat(49), boot(103)].concat()), Err(21));
    assert_eq!(decompile(&full, &mut [0; TABLE_BYTES - 1]), Err(18));
    assert_eq!(decompile(&over, &mut []), Err(21));
    assert_eq!(record_fault(&over), 0);
}

/// The table's refusal, then 21, then 18; a refused call writes nothing.
#[test]
fn compiling_is_refused_in_order() {
    let long = format!("@daily {}", "x".repeat(LINE_BYTES - 9));
    assert_eq!(compiled(format!("{long}\n").as_bytes()), Err(21));
    assert_eq!(compiled(long.as_bytes()), Err(26));
    assert_eq!(compiled(format!("{long}\n60").as_bytes()), Err(6));
    let mut buffer = [7; 6];
    assert_eq!(compile(b"A=\n", &mut buffer), Err(18));
    assert_eq!(buffer, [7; 6]);
    let mut buffer = [7; 8];
    assert_eq!(compile(b"A=\n", &mut buffer), Ok(7));
    assert_eq!(buffer, [5, 0, 3, 0, 1, 0, b'A', 7]);
    assert_eq!(compile(b"", &mut []), Ok(0));
}

/// No records are longer than 7 bytes for each 3 of the text, and those of a table full of `A=` are as long.
#[test]
fn the_longest_records() {
    let settings = "A=\n".repeat(TABLE_BYTES / 3);
    let records = compiled(settings.as_bytes()).expect("a good table");
    assert_eq!(records.len(), 114_688);
    let mut random = Random::seeded();
    for _ in 0..2_000 {
        let lines = random.below(9);
        let table = normal::samples::table(&mut random, lines);
        let text = normal::normal_text(&table).expect("a short table");
        let records = compiled(&table).expect("a short table");
        assert!(3 * records.len() <= 7 * text.len());
    }
}

#[test]
fn random_tables_there_and_back() {
    let mut random = Random::seeded();
    for _ in 0..5_000 {
        let lines = random.below(9);
        let table = normal::samples::table(&mut random, lines);
        let text = normal::normal_text(&table).expect("a short table");
        let records = compiled(&table).expect("a short table");
        assert_eq!(decompiled(&records).as_ref(), Ok(&text));
        assert_eq!(compiled(&text), Ok(records));
    }
}
