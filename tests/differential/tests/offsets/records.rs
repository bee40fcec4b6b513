//! Offsets in records: kind 4, which only this name has.

use differential::records::Compared;
use differential::samples::ended;
use differential::table;
use eremothyn::Answer;
use reference::random::Random;
use reference::table::offset::known::{NO_OFFSETS, OTHER_NAMES, SEVERAL};
use reference::table::offset::samples::any_line;
use reference::table::offset::{text, EAST, WEST};
use reference::table::records::samples::record;

const NO_LINE: Answer = Err(24);

/// A setting as a record of a kind.
fn setting(kind: u16, name: &[u8], value: &[u8]) -> Vec<u8> {
    record(kind, &[&[name.len() as u8, 0], name, value].concat())
}

fn answer(records: &[u8]) -> Answer {
    let compared = Compared::of(records);
    compared.decompile_into_all();
    compared.decompile_whole()
}

/// Every offset there is, there and back, and under the wrong kind.
#[test]
fn every_offset_there_and_back() {
    let values = (WEST..=EAST).map(text).chain(["-00:00".into()]);
    for value in values {
        let line = format!("CRON_TZ={value}\n");
        let records = table::Compared::of(line.as_bytes()).there_and_back();
        assert_eq!(records, setting(4, b"CRON_TZ", value.as_bytes()));
        assert_eq!(answer(&records), Ok(line.len() as u64));
        // As a command it has a byte 0, as an entry it is too short.
        for (kind, refusal) in [(3, 24), (2, 24), (1, 24), (5, 23), (0, 23)] {
            let wrong = setting(kind, b"CRON_TZ", value.as_bytes());
            assert_eq!(answer(&wrong), Err(refusal), "{kind} {value}");
        }
    }
}

/// Settings written in any way have one record; tables keep the order of settings and entries.
#[test]
fn tables_there_and_back() {
    let mut random = Random::seeded();
    for _ in 0..3_000 {
        let line = any_line(&mut random);
        let alone = table::Compared::of(&ended(&line)).there_and_back();
        assert_eq!(alone[2..4], [4, 0], "{line}");
        let between = format!("@reboot a\n{line}\nTZ=x\n{line}\n@daily b\n");
        let records = table::Compared::of(between.as_bytes()).there_and_back();
        let settings = [&alone[..], &setting(3, b"TZ", b"x"), &alone].concat();
        let before = record(2, b"a");
        assert!(records.starts_with(&[&before[..], &settings].concat()));
    }
    let several = SEVERAL.replace('~', "");
    let _ = table::Compared::of(several.as_bytes()).there_and_back();
}

/// Another name under kind 4, this one under kind 3, a value that is no offset.
#[test]
fn the_wrong_kind_for_the_name() {
    for name in OTHER_NAMES.into_iter().chain(["A", "CRON_TZ CRON_TZ"]) {
        for value in ["+05:30", "", "x"] {
            let [known, wrong] =
                [3, 4].map(|kind| setting(kind, name.as_bytes(), value.as_bytes()));
            // A name with both quotes can't be written.
            let is_name = !(name.contains('"') && name.contains('\''));
            assert_eq!(answer(&known).is_ok(), is_name, "{name}={value}");
            assert_eq!(answer(&wrong), NO_LINE, "{name}={value}");
        }
    }
    for value in NO_OFFSETS
        .into_iter()
        .chain([" +05:30", "+05:30 ", "'+05:30'", "\t"])
    {
        for kind in [3, 4] {
            let records = setting(kind, b"CRON_TZ", value.as_bytes());
            assert_eq!(answer(&records), NO_LINE, "{kind} {value}");
        }
    }
    // Its number is its place, and a bad record before it decides.
    let bad = setting(4, b"CRON_TZ", b"UTC");
    let good = setting(4, b"CRON_TZ", b"-03:30");
    for (records, fault) in [
        ([&good[..], &bad].concat(), 2),
        ([&record(0x8000, b""), &good[..], &bad, &bad].concat(), 3),
        ([&bad[..], &record(5, b"")].concat(), 1),
    ] {
        assert_eq!(answer(&records), NO_LINE);
        assert_eq!(Compared::of(&records).fault, fault);
    }
    let unknown = [&record(5, b"")[..], &bad].concat();
    assert_eq!(answer(&unknown), Err(23));
}

/// Each byte of a record changed to each other, taken out, and the record cut at each place.
#[test]
fn every_byte_of_a_record() {
    let good = setting(4, b"CRON_TZ", b"+13:59");
    for at in 0..good.len() {
        for byte in 0..=255 {
            let mut changed = good.clone();
            changed[at] = byte;
            let _ = answer(&changed);
        }
        let body = &good[4..];
        if at < body.len() {
            for kind in [3, 4] {
                let _ = answer(&record(kind, &[&body[..at], &body[at + 1..]].concat()));
                let _ = answer(&record(kind, &body[..at]));
            }
        }
        assert_eq!(answer(&good[..at]).is_ok(), at == 0);
    }
}

/// Names that are longer or shorter than their length says.
#[test]
fn lengths_of_the_name() {
    let text = b"CRON_TZ+05:30";
    for length in 0..=text.len() + 2 {
        for high in [0, 1] {
            let body = [&[length as u8, high], &text[..]].concat();
            let is_good = length == 7 && high == 0;
            let expected = if is_good { Ok(15) } else { NO_LINE };
            assert_eq!(answer(&record(4, &body)), expected, "{length} {high}");
        }
    }
}
