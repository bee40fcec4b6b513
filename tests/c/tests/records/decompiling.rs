//! `eremothyn decompile`.

use c::{all, complaint, is, Subcommand};
use reference::random::Random;
use reference::table::records::known::{hex, RECORDS, TEXT};
use reference::table::records::samples::{damaged, good, record, with_later};
use reference::table::records::{decompiled, record_fault};
use reference::table::{ENTRIES, LINE_BYTES};

fn decompile_in(folder: &str) -> Subcommand {
    Subcommand::new("decompile", folder)
}

#[test]
fn the_text_is_printed() {
    let decompile = decompile_in("decompile-text");
    let records = hex(RECORDS);
    decompile.write("records", &records);
    let ways: [&[&str]; 4] = [&["records"], &[], &["-"], &["--", "-"]];
    for way in ways {
        let output = decompile.run_with(way, &records);
        assert_eq!(all(&output), is(TEXT, "", 0), "{way:?}");
    }
    assert_eq!(all(&decompile.run_with::<&str>(&[], b"")), is("", "", 0));
}

/// The first bad record is told by its number, those that are skipped counted.
#[test]
fn a_refused_record_is_told_by_its_number() {
    let decompile = decompile_in("decompile-refused");
    let cut = "refused 22: the record is cut short, or its length is below 2";
    let unknown = "refused 23: an unknown kind of record, and not one that may be skipped";
    let no_line = "refused 24: the record says what no line of a table could mean";
    let good = hex(RECORDS);
    let skipped = [&good[..], &record(0x8000, b"?")].concat();
    let offset_as_setting = record(3, b"\x07\0CRON_TZ+05:30");
    let rows: [(&[u8], &[u8], &str); 7] = [
        (b"", b"\0", &format!("record 1: {cut}")),
        (b"", b"# a crontab\n", &format!("record 1: {cut}")),
        (&good, b"\x03\0\x02\0", &format!("record 4: {cut}")),
        (&good, b"\x02\0\x05\0", &format!("record 4: {unknown}")),
        (&skipped, b"\x02\0\0\0", &format!("record 5: {unknown}")),
        (&skipped, b"\x03\0\x02\0 ", &format!("record 5: {no_line}")),
        (&good, &offset_as_setting, &format!("record 4: {no_line}")),
    ];
    for (before, bad, told) in rows {
        decompile.write("records", [before, bad].concat());
        let output = decompile.run(&["records"]);
        assert_eq!(all(&output), is("", &format!("records: {told}\n"), 1));
        let output = decompile.run_with(&["-"], &[before, bad].concat());
        assert_eq!(all(&output), is("", &format!("-: {told}\n"), 1));
    }
}

/// What no single record is to blame for is told of the whole.
#[test]
fn records_that_pass_a_limit_are_told_as_a_whole() {
    let decompile = decompile_in("decompile-limits");
    let entry = record(2, b"a");
    let many = entry.repeat(ENTRIES + 1);
    decompile.write("records", &many);
    let told = "records: refused 12: more than 512 entries\n";
    assert_eq!(all(&decompile.run(&["records"])), is("", told, 1));
    let long = record(2, &vec![b'x'; LINE_BYTES]);
    decompile.write("records", [entry, long].concat());
    let (text, complaint, status) = all(&decompile.run(&["records"]));
    assert!(
        complaint.starts_with("records: refused 21: "),
        "{complaint}"
    );
    assert_eq!((text.as_str(), status), ("", Some(1)));
}

/// Skipped records may make a file long: 16 MiB are read, and no more.
#[test]
fn long_files_are_read_whole() {
    const MOST: usize = 1 << 24;
    let decompile = decompile_in("decompile-long");
    let skipped = record(0x9000, &[0; 65_532]);
    let entry = record(2, b"last");
    let fill = record(0x9000, &vec![0; skipped.len() - entry.len() - 4]);
    let mut records = skipped.repeat(MOST / skipped.len() - 1);
    records.extend([fill, entry].concat());
    assert_eq!(records.len(), MOST);
    decompile.write("records", &records);
    let output = decompile.run(&["records"]);
    assert_eq!(all(&output), is("@reboot last\n", "", 0));
    records.push(0);
    decompile.write("records", &records);
    let complaint = "eremothyn decompile: records: File too large\n";
    assert_eq!(all(&decompile.run(&["records"])), is("", complaint, 2));
    let complaint = "eremothyn decompile: /dev/zero: File too large\n";
    assert_eq!(all(&decompile.run(&["/dev/zero"])), is("", complaint, 2));
}

#[test]
fn it_prints_what_the_second_program_writes() {
    let decompile = decompile_in("decompile-random");
    let mut random = Random::seeded();
    for round in 0..600 {
        let good = good(&mut random, round % 12);
        let mixed = with_later(&mut random, &good);
        let records = match round % 3 {
            0 => mixed,
            _ => damaged(&mut random, mixed),
        };
        let output = decompile.run_with::<&str>(&[], &records);
        match decompiled(&records) {
            Ok(text) => assert_eq!((output.stdout, output.status.code()), (text, Some(0))),
            Err(refusal) => {
                let number = record_fault(&records);
                let start = format!("-: record {number}: refused {refusal}: ");
                assert!(complaint(&output).starts_with(&start), "{output:?}");
                assert_eq!((output.stdout.len(), output.status.code()), (0, Some(1)));
            }
        }
    }
}
