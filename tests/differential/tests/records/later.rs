//! Today's reader and a later writer: kinds that aren't known, and those that are skipped.

use differential::records::Compared;
use reference::random::Random;
use reference::table::records::samples::{apart, damaged, good, record, with_later};

const UNKNOWN: u64 = 23;

/// Every number as a kind, with no body, with a command and with what is a setting.
#[test]
fn every_kind() {
    let before = record(2, b"a");
    for kind in 0..=u16::MAX {
        for body in [&b""[..], b"\x01\0b"] {
            let records = [&before[..], &record(kind, body), &before].concat();
            let compared = Compared::of(&records);
            let _ = compared.decompile_whole();
            match kind {
                1..=4 => {}
                32_768.. => assert_eq!(compared.text, Ok(b"@reboot a\n".repeat(2)), "{kind}"),
                _ => assert_eq!((compared.fault, compared.text), (2, Err(UNKNOWN)), "{kind}"),
            }
        }
    }
}

/// Records of later kinds between good ones change nothing.
#[test]
fn later_kinds_between_good_records() {
    let mut random = Random::seeded();
    for _ in 0..20_000 {
        let lines = random.below(6);
        let records = good(&mut random, lines);
        let mixed = with_later(&mut random, &records);
        let compared = Compared::of(&mixed);
        compared.decompile_into_all();
        assert_eq!(compared.text, Compared::of(&records).text);
        assert_eq!(compared.fault, 0);
    }
}

/// Taking whole records of such kinds out changes at most the number of the bad record.
#[test]
fn later_kinds_between_any_records() {
    let mut random = Random::seeded();
    let mut faults = 0;
    for _ in 0..40_000 {
        let lines = random.below(6);
        let good = good(&mut random, lines);
        let records = damaged(&mut random, good);
        let mixed = with_later(&mut random, &records);
        // What is cut short stands behind the whole ones.
        let whole: usize = apart(&records).iter().map(|one| one.len()).sum();
        let mixed = [&mixed[..], &records[whole..]].concat();
        let [alone, beside] = [&records, &mixed].map(|records| Compared::of(records));
        let _ = beside.decompile_whole();
        assert_eq!(alone.text, beside.text);
        assert_eq!(alone.fault == 0, beside.fault == 0);
        assert!(alone.fault <= beside.fault);
        faults += u32::from(alone.fault != beside.fault);
    }
    assert!(faults > 1_000, "{faults}");
}

/// As long a skipped record as there can be, and many of them.
#[test]
fn long_and_many_skipped_records() {
    let long = record(0x8000, &vec![0; 65_533]);
    let short = record(0xffff, b"");
    let entry = record(2, b"a");
    for skipped in [long.repeat(20), short.repeat(100_000)] {
        let records = [&skipped[..], &entry, &skipped].concat();
        let compared = Compared::of(&records);
        compared.decompile_into_all();
        assert_eq!(compared.text, Ok(b"@reboot a\n".to_vec()));
        let bad = [&records[..], &record(5, b"")].concat();
        let numbers = 2 * apart(&skipped).len() as u64 + 2;
        assert_eq!(Compared::of(&bad).fault, numbers);
    }
}
