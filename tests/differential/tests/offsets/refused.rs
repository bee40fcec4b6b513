//! Values that are no offsets, in tables of both kinds, with their places.

use differential::queue;
use differential::table::Compared;
use guard::filled;
use reference::table::offset::known::{BAD_LINES, NO_OFFSETS, OTHER_NAMES};
use reference::table::Kind;

/// The fault of a table, the same in both kinds.
fn fault(table: &[u8]) -> Option<[u64; 3]> {
    let [user, system] = Kind::BOTH.map(|kind| Compared::under(table, kind).fault());
    assert_eq!(user, system, "{}", table.escape_ascii());
    user
}

/// Every bad line and every bad value, as the first line, in the midst and as the last, with a newline and without.
#[test]
fn every_bad_line_at_every_place() {
    let of_values = NO_OFFSETS.map(|value| (format!("CRON_TZ={value}"), 25, 9));
    let of_lines = BAD_LINES.map(|(line, number, column)| (line.to_string(), number, column));
    for (line, number, column) in of_values.into_iter().chain(of_lines) {
        for before in ["", "\n", "CRON_TZ=+01:00\n", "#\n@daily u a\nA=b\n"] {
            for behind in ["", "\n", "\n60\n", "\nCRON_TZ=x", "\nCRON_TZ=+01:00\n"] {
                let table = format!("{before}{line}{behind}");
                let number_of_line = before.matches('\n').count() as u64 + 1;
                let expected = [number, number_of_line, column];
                assert_eq!(fault(table.as_bytes()), Some(expected), "{table}");
            }
        }
    }
}

/// Every call refuses such a table.
#[test]
fn every_call_is_refused() {
    let table = b"* * * * * u a\nCRON_TZ=Japan\n";
    for kind in [0, 1, u64::MAX] {
        let compared = Compared::under(table, kind);
        for any in [0, 1, 2, u64::MAX] {
            assert_eq!(compared.due(any, any), Err(25));
            assert_eq!(compared.next(any, any), Err(25));
            assert_eq!(compared.setting(any), Err(25));
            assert_eq!(compared.stdin_length(any), Err(25));
            assert_eq!(compared.user_column(any), Err(25));
            assert_eq!(compared.split_command(any, [9, 9]), Err(25));
        }
        for length in [0, 9] {
            assert_eq!(compared.normal_form(length), Err(25));
            assert_eq!(compared.compile(length), Err(25));
            queue::refused(table, kind, 25, &filled(length), 0);
        }
    }
}

/// The first line that is bad counts, and on it 2, 3 and 27 come first, then 11; 26 comes last.
#[test]
fn the_order_on_a_line() {
    let long = |length: usize| format!("CRON_TZ={}", "x".repeat(length - "CRON_TZ=".len()));
    let rows = [
        (long(1_000), [25, 1, 9]),
        (long(1_001), [2, 1, 1_001]),
        ("CRON_TZ=x\0".into(), [3, 1, 10]),
        ("\0CRON_TZ=x".into(), [3, 1, 1]),
        ("CRON_TZ=+05:30\0".into(), [3, 1, 15]),
        ("CRON_TZ=x\r\n".into(), [27, 1, 10]),
        ("CRON_TZ=+05:30\r\n".into(), [27, 1, 15]),
        ("CRON_TZ=x".into(), [25, 1, 9]),
        ("CRON_TZ=+05:30".into(), [26, 1, 15]),
        ("CRON_TZ='x".into(), [11, 1, 1]),
        ("  CRON_TZ='x' y".into(), [11, 1, 3]),
        ("CRON_TZ x=+05:30".into(), [11, 1, 1]),
        ("60\nCRON_TZ=x".into(), [6, 1, 1]),
        ("CRON_TZ=x\n60".into(), [25, 1, 9]),
    ];
    for (table, expected) in rows {
        assert_eq!(fault(table.as_bytes()), Some(expected), "{table}");
    }
    // 12 has nothing to do with settings.
    let full = "@reboot u a\n".repeat(512);
    assert_eq!(fault(format!("{full}CRON_TZ=+05:30\n").as_bytes()), None);
    let bad = format!("{full} CRON_TZ = x");
    assert_eq!(fault(bad.as_bytes()), Some([25, 513, 12]));
    let more = format!("{full}@reboot u a\nCRON_TZ=x");
    assert_eq!(fault(more.as_bytes()), Some([12, 513, 1]));
}

/// Of all values of the form, those up to 12 hours to the west and up to 14 to the east are offsets.
#[test]
fn every_value_of_the_form() {
    for hours in 0..100 {
        for minutes in 0..100 {
            for (sign, most) in [('+', 14), ('-', 12)] {
                let line = format!("CRON_TZ={sign}{hours:02}:{minutes:02}\n");
                let is_good = minutes < 60 && (hours < most || hours == most && minutes == 0);
                let expected = if is_good { None } else { Some([25, 1, 9]) };
                assert_eq!(fault(line.as_bytes()), expected, "{line}");
            }
        }
    }
}

/// Each byte in each place of a good value, put in before it, and each place without its byte.
#[test]
fn every_byte_at_every_place_of_a_value() {
    for value in [b"+05:30", b"-12:00", b"+14:00", b"-00:00"] {
        for at in 0..=value.len() {
            for byte in 0..=255 {
                let mut more = value.to_vec();
                more.insert(at, byte);
                judge(&more);
                if at < value.len() {
                    let mut other = value.to_vec();
                    other[at] = byte;
                    judge(&other);
                }
            }
            judge(&[&value[..at], &value[value.len().min(at + 1)..]].concat());
            judge(&value[..at]);
        }
    }
}

/// Compares a value as it stands bare, in quotes and with blanks around it.
fn judge(value: &[u8]) {
    for (start, end) in [("", ""), (" \t", "\t "), ("\"", "\""), ("'", "' ")] {
        let table = [b"CRON_TZ=", start.as_bytes(), value, end.as_bytes(), b"\n"].concat();
        let _ = fault(&table);
    }
}

/// Each byte in each place of the name, and names of other lengths: any other name may have any value.
#[test]
fn only_this_name_is_special() {
    for name in OTHER_NAMES {
        for value in NO_OFFSETS {
            let table = format!("{name}={value}\n0 0 * * * a b\n");
            assert_eq!(fault(table.as_bytes()), None, "{table}");
            let next = Compared::of(table.as_bytes()).next(0, 0);
            assert_eq!(next, Ok(1_440), "{table}");
        }
    }
    for at in 0..7 {
        for byte in 1..=255 {
            let mut name = b"CRON_TZ".to_vec();
            name[at] = byte;
            for line in [
                [&name[..], b"=Japan\n"].concat(),
                [b"'", &name[..], b"'=Japan\n"].concat(),
                [&name[..at], b"=Japan\n"].concat(),
            ] {
                let _ = fault(&line);
            }
        }
    }
}
