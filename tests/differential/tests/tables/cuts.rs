//! Ticket 2026-11: a table that was cut after any byte is refused, or is a whole table that ends in a newline; and the bytes that no
//! line has.

use differential::samples::{any_rules, ended, numbers, of_kind};
use differential::table::Compared;
use reference::random::Random;
use reference::table::offset::known::SEVERAL;
use reference::table::records::known::{LINES, TABLE, TEXT};
use reference::table::{documents, samples, Kind};
use std::fs;
use std::path::Path;

/// Every prefix of a table, in both kinds: all that isn't refused is empty or ends in a newline.
fn cut_everywhere(table: &[u8]) {
    for kind in Kind::BOTH {
        for length in 0..=table.len() {
            let prefix = &table[..length];
            let fault = Compared::under(prefix, kind).fault();
            let is_whole = matches!(prefix.last(), None | Some(b'\n'));
            let shown = prefix.escape_ascii();
            assert!(fault.is_some() || is_whole, "{kind:?} {shown}");
            // 26 never comes where the table ends in a newline.
            let is_cut = fault.is_some_and(|[number, ..]| number == 26);
            assert!(!(is_cut && is_whole), "{kind:?} {shown}");
        }
    }
}

#[test]
fn the_example_tables_cut_after_every_byte() {
    let folder = Path::new(env!("CARGO_MANIFEST_DIR")).join("../../examples");
    let paths = fs::read_dir(folder).expect("the examples").flatten();
    let paths = paths.map(|entry| entry.path());
    let tables: Vec<_> = paths
        .filter(|path| path.extension().is_some_and(|of| of == "crontab"))
        .collect();
    assert!(tables.len() >= 4, "{tables:?}");
    for path in tables {
        let table = fs::read(&path).expect("a table");
        assert_eq!(table.last(), Some(&b'\n'), "{path:?}");
        cut_everywhere(&table);
    }
}

#[test]
fn known_tables_cut_after_every_byte() {
    let entries = documents::ENTRIES.map(|(line, _)| line).join("\n");
    let system = documents::SYSTEM_ENTRIES.map(|(line, _)| line).join("\n");
    let settings = documents::SETTINGS.map(|(line, ..)| line).join("\n");
    let records = LINES.map(|(line, ..)| line).join("\n");
    let offsets = Kind::BOTH.map(|kind| of_kind(SEVERAL, kind));
    let whole_run = "* * * * * a\n@reboot b\n0 * * * * c\n";
    let texts = [
        &entries,
        &system,
        &settings,
        &records,
        &offsets[0],
        &offsets[1],
    ];
    for text in texts {
        cut_everywhere(&ended(text));
    }
    for text in [documents::VIXIE, TABLE, TEXT, whole_run] {
        cut_everywhere(&ended(text));
    }
}

#[test]
fn random_tables_cut_after_every_byte() {
    let mut random = Random::seeded();
    for _ in 0..300 {
        let rules = any_rules(&mut random);
        let lines = random.below(5);
        cut_everywhere(&samples::table(&mut random, rules, lines));
    }
}

/// A good table has one that is refused for each line: the same without that line's newline and what follows it. Every call then
/// refuses so.
#[test]
fn every_call_refuses_a_cut_table() {
    let tables: [&[u8]; 5] = [
        b"* * * * * a b",
        b"# a\n@reboot a b",
        b"A=b",
        b"\n\n \t",
        b"@daily a b\n# c",
    ];
    for table in tables {
        for kind in Kind::BOTH {
            let compared = Compared::under(table, kind);
            let last = table.rsplit(|&byte| byte == b'\n').next().expect("a line");
            let newlines = table.iter().filter(|&&byte| byte == b'\n').count();
            let place = [26, newlines as u64 + 1, last.len() as u64 + 1];
            assert_eq!(compared.fault(), Some(place), "{}", table.escape_ascii());
            for any in [0, 1, 2, 1 << 32, u64::MAX] {
                assert_eq!(compared.due(any, any), Err(26));
                assert_eq!(compared.next(any, any), Err(26));
                assert_eq!(compared.setting(any), Err(26));
                assert_eq!(compared.stdin_length(any), Err(26));
                assert_eq!(compared.user_column(any), Err(26));
                assert_eq!(compared.split_command(any, [9, 9]), Err(26));
            }
            assert_eq!(compared.normal_form(99), Err(26));
            assert_eq!(compared.compile(99), Err(26));
            assert_eq!(Compared::under(&ended(table), kind).fault(), None);
        }
    }
}

/// Each of the 256 bytes in each place of every sort of line: 27 at the first one that no line has, but 3 at the first byte 0.
#[test]
fn every_byte_at_every_place_of_every_sort_of_line() {
    let lines: [&[u8]; 8] = [
        b"# a comment",
        b" \t ",
        b"A = \"b\" ",
        b"'a b'=c d",
        b"1,2 3-4 */5 jan 1-7/2 a b%c",
        b"@reboot u:g/l c",
        b"60 60",
        b"CRON_TZ = +05:30",
    ];
    for line in lines {
        for at in 0..=line.len() {
            for byte in (0..=255_u8).filter(|&byte| byte != b'\n') {
                let mut with = line.to_vec();
                with.insert(at, byte);
                let table = [b"a=b\n", &with[..], b"\n"].concat();
                for kind in Kind::BOTH {
                    let fault = Compared::under(&table, kind).fault();
                    let refused = matches!(byte, 1..=8 | 11..=31 | 127);
                    let place = [2, at as u64 + 1];
                    let of_bytes = fault.filter(|[number, ..]| [3, 27].contains(number));
                    let expected = match byte {
                        0 => Some([3, place[0], place[1]]),
                        _ if refused => Some([27, place[0], place[1]]),
                        _ => None,
                    };
                    assert_eq!(of_bytes, expected, "{}", table.escape_ascii());
                }
            }
        }
    }
}

/// 2, 3 and 27 in this order, wherever they stand on a line.
#[test]
fn the_order_of_the_first_three() {
    let mut random = Random::seeded();
    for _ in 0..5_000 {
        let rules = any_rules(&mut random);
        let mut line = samples::line(&mut random, rules);
        let mut put = |byte: u8| {
            let at = random.below(line.len() as u64 + 1) as usize;
            line.insert(at, byte);
        };
        for byte in [0, 1, 127, 13, 0] {
            put(byte);
        }
        let zero = line.iter().position(|&byte| byte == 0).expect("a byte 0");
        let table = ended(&line);
        let number = numbers(&mut random, rules);
        let fault = Compared::under(&table, number).fault();
        assert_eq!(fault, Some([3, 1, zero as u64 + 1]));
        let without: Vec<u8> = line.iter().copied().filter(|&byte| byte != 0).collect();
        let first = without.iter().position(|byte| [1, 13, 127].contains(byte));
        let table = ended(&without);
        let fault = Compared::under(&table, number).fault();
        assert_eq!(fault, Some([27, 1, first.expect("a byte") as u64 + 1]));
        line.resize(1_001, b' ');
        let table = ended(&line);
        let fault = Compared::under(&table, number).fault();
        assert_eq!(fault, Some([2, 1, 1_001]));
    }
}
