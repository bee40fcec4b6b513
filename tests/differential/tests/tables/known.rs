//! Known tables: the paper's known days, the examples of the documents, and what other crons get wrong.

use differential::samples::ended;
use differential::table::Compared;
use reference::calendar::LAST_MINUTE;
use reference::random::Random;
use reference::table::documents;

/// The next firing of a user table's first entry.
fn next(table: &str, minute: u64) -> Result<u64, u64> {
    Compared::of(&ended(table)).next(0, minute)
}

/// Every call, with the table as one of either kind.
fn everything(table: &[u8]) {
    for compared in [Compared::of(table), Compared::system(table)] {
        compared.everything(&mut Random::new(4));
    }
}

#[test]
fn known_days() {
    let rows = [
        ("@reboot a", 0, Err(15)),
        ("@reboot a", LAST_MINUTE, Err(15)),
        ("@reboot a", LAST_MINUTE + 1, Err(14)),
        ("@reboot a", u64::MAX, Err(14)),
        ("60 0 * * * a", 0, Err(6)),
        ("60 0 * * * a", u64::MAX, Err(6)),
        ("0 0 * * mon-fri a", 0, Ok(1_440)),
        ("0 0 * * fri-mon a", 0, Err(7)),
        ("0 0 * * *", 0, Err(9)),
        ("10-9 0 * * * a", 0, Err(7)),
        ("10-10 0 * * * a", 0, Ok(10)),
        ("5/2 0 * * * a", 0, Err(5)),
        ("*,5 0 * * * a", 0, Err(5)),
        ("", 0, Err(13)),
        ("", u64::MAX, Err(13)),
    ];
    for (table, minute, expected) in rows {
        assert_eq!(next(table, minute), expected, "{table} after {minute}");
    }
    for (fields, minute, expected) in documents::KNOWN_DAYS {
        assert_eq!(next(&format!("{fields} a"), minute), expected, "{fields}");
        let line = format!("{fields} u:g/l a\n");
        let system = Compared::system(line.as_bytes());
        assert_eq!(system.next(0, minute), expected, "{line}");
    }
}

#[test]
fn due_is_no_for_reboot_and_refused_off_the_calendar() {
    for kind in [0, 1] {
        // Good in both kinds.
        let table = Compared::under(b"@reboot a b\n* * * * * c d\n", kind);
        for minute in [0, 1, 15_863_040, LAST_MINUTE] {
            assert_eq!(table.due(0, minute), Ok(0));
            assert_eq!(table.due(1, minute), Ok(1));
        }
        for minute in [LAST_MINUTE + 1, 1 << 32, (1 << 32) + 1, 1 << 63, u64::MAX] {
            assert_eq!(table.due(0, minute), Err(14));
            assert_eq!(table.due(1, minute), Err(14));
            assert_eq!(table.due(2, minute), Err(13));
        }
    }
}

#[test]
fn numbers_of_entries_and_lines_are_never_cut_short() {
    for kind in [0, 1] {
        never_cut_short(&Compared::under(b"a=b\n* * * * * u c%d\ne=f\n", kind));
    }
}

fn never_cut_short(table: &Compared) {
    for high in (1..64).map(|bit| 1_u64 << bit).chain([u64::MAX - 2]) {
        for low in 0..3 {
            let entry = high + low;
            assert_eq!(table.due(entry, 0), Err(13), "entry {entry}");
            assert_eq!(table.next(entry, 0), Err(13), "entry {entry}");
            assert_eq!(table.stdin_length(entry), Err(13), "entry {entry}");
            assert_eq!(table.user_column(entry), Err(13), "entry {entry}");
            assert_eq!(table.split_command(entry, [9, 9]), Err(13));
            if entry > 3 {
                assert_eq!(table.setting(entry), Err(19), "line {entry}");
            }
        }
    }
    let is_setting = [0, 1, 2, 3, 4].map(|line| table.setting(line).is_ok());
    assert_eq!(is_setting, [false, true, false, true, false]);
}

#[test]
fn the_documents_entries() {
    for (line, expected) in documents::ENTRIES {
        let table = format!("# comment\n\n{line}\n");
        let compared = Compared::of(table.as_bytes());
        compared.everything(&mut Random::new(4));
        match expected {
            Ok(firings) => {
                let mut minute = 0;
                for &firing in firings {
                    assert_eq!(compared.next(0, minute), Ok(firing), "{line}");
                    minute = firing;
                }
            }
            Err((15, _)) => assert_eq!(compared.next(0, 0), Err(15)),
            Err((number, column)) => {
                assert_eq!(compared.fault(), Some([number, 3, column]), "{line}");
            }
        }
    }
}

#[test]
fn the_documents_system_entries() {
    for (line, expected) in documents::SYSTEM_ENTRIES {
        let before = "# comment\n\n@reboot root first\n";
        let table = format!("{before}{line}\n");
        let compared = Compared::system(table.as_bytes());
        compared.everything(&mut Random::new(4));
        match expected {
            Ok((parts, command)) => {
                let text = |[at, length]: [u64; 2]| &table[at as usize..(at + length) as usize];
                let found = compared.user_column(1).expect(line).map(text);
                assert_eq!(found, parts.map(Option::unwrap_or_default), "{line}");
                let shell = command.find('%').unwrap_or(command.len());
                assert_eq!(compared.split_command(1, [shell, 99]), Ok(shell as u64));
            }
            Err((number, column)) => {
                assert_eq!(compared.fault(), Some([number, 4, column]), "{line}");
            }
        }
    }
}

#[test]
fn the_documents_settings() {
    for (line, name, value) in documents::SETTINGS {
        let table = format!("\n{line}\n");
        let compared = Compared::of(table.as_bytes());
        let setting = compared.setting(2).expect(line);
        let shown = [setting.name, setting.value]
            .map(|part| &table[part.offset..part.offset + part.length]);
        assert_eq!(shown, [name, value], "{line}");
    }
    let (zone, column) = documents::NAMED_ZONE;
    let fault = Compared::of(zone.as_bytes()).fault();
    assert_eq!(fault, Some([25, 1, column]));
}

#[test]
fn the_documents_tables() {
    let lines: Vec<&str> = documents::ENTRIES
        .iter()
        .filter(|(_, expected)| matches!(expected, Ok(_) | Err((15, _))))
        .map(|(line, _)| *line)
        .chain(documents::SETTINGS.iter().map(|(line, ..)| *line))
        .collect();
    for table in [&lines.join("\n"), documents::VIXIE] {
        let table = ended(table);
        let compared = Compared::of(&table);
        assert_eq!(compared.fault(), None);
        compared.everything(&mut Random::new(4));
    }
    assert_eq!(Compared::of(documents::VIXIE.as_bytes()).check(), Ok(5));
}

#[test]
fn tables_with_nothing_in_them() {
    let tables: [&[u8]; 9] = [
        b"",
        b"\n",
        b"\n\n\n",
        b" \n",
        b"\t \n \n",
        b"#\n",
        b"#\n#\n",
        b"# a=b\n# * * * * * a\n",
        b" \t#\n\t\n",
    ];
    for table in tables {
        let compared = Compared::of(table);
        assert_eq!((compared.check(), compared.fault()), (Ok(0), None));
        everything(table);
        let lines = table.len() as u64 + 2;
        assert!((0..lines).all(|line| compared.setting(line) == Err(19)));
    }
}

#[test]
fn a_last_line_is_judged_without_its_newline() {
    /// A table, its count of entries, and its fault.
    type Row = (&'static [u8], u64, Option<[u64; 3]>);
    let rows: [Row; 8] = [
        (b"* * * * * a", 0, Some([26, 1, 12])),
        (b"* * * * * a\n", 1, None),
        (b"* * * * * a\n* * * * * b", 0, Some([26, 2, 12])),
        (b"* * * * * a\n\n", 1, None),
        (b"a=b\n* * * * *", 0, Some([9, 2, 10])),
        (b"a=b\n* * * * *\n", 0, Some([9, 2, 10])),
        (b"a=b\n\n60", 0, Some([6, 3, 1])),
        (b"a=b\n\n\n5", 0, Some([4, 4, 2])),
    ];
    for (table, count, fault) in rows {
        let compared = Compared::of(table);
        assert_eq!(compared.fault(), fault);
        assert_eq!(compared.check().unwrap_or(0), count);
        everything(table);
    }
}

#[test]
fn slips_of_other_crons() {
    // Steps are no divisibility: months 1, 3, 5.
    let months = Compared::of(b"0 0 1 */2 * a\n");
    assert_eq!(months.next(0, 0), Ok(59 * 1_440));
    assert_eq!(months.due(0, 0), Ok(1));
    assert_eq!(months.due(0, 31 * 1_440), Ok(0));
    // Days 3, 5 and 7: a step counts from the range's first value.
    assert_eq!(next("0 0 3-7/2 * * a", 0), Ok(2 * 1_440));
    assert_eq!(next("0 0 3-7/2 * * a", 2 * 1_440), Ok(4 * 1_440));
    // 7 in a range is Sunday, 4 January.
    for field in ["5-7", "7", "0", "6-7", "1-7/6", "*/7", "7-7", "sun", "1,7"] {
        let table = format!("0 0 * * {field} a\n");
        let compared = Compared::of(table.as_bytes());
        assert_eq!(compared.due(0, 3 * 1_440), Ok(1), "{field}");
        assert_eq!(compared.due(0, 10 * 1_440), Ok(1), "{field}");
    }
    // February 30 never comes, and 2100 has no 29th.
    assert_eq!(next("0 0 30 2 * a", 0), Err(16));
    assert_eq!(next("0 0 29 2 * a", 66_355_200), Ok(70_561_440));
    // `\\%` is a pair and then the end of the shell line.
    let pair = Compared::of(b"@hourly a\\\\%b\n");
    assert_eq!(pair.stdin_length(0), Ok(Some(1)));
    assert_eq!(pair.split_command(0, [3, 1]), Ok(3));
    // Numbers don't wrap.
    for number in ["256", "4294967296", "18446744073709551616", "65536"] {
        let fault = Compared::of(format!("{number} * * * * a").as_bytes()).fault();
        let expected = if number.len() > 4 { 5 } else { 6 };
        assert_eq!(fault, Some([expected, 1, 1]), "{number}");
    }
    // The month always counts: Mondays of February, and the 1st.
    let february = Compared::of(b"0 0 1 2 1 a\n");
    assert_eq!(february.due(0, 4 * 1_440), Ok(0));
    assert_eq!(february.next(0, 0), Ok(31 * 1_440));
    assert_eq!(february.next(0, 31 * 1_440), Ok(32 * 1_440));
    // Ticket 2026-03: a day field that begins with `*` makes both match. 1970-01-05 is a Monday.
    assert_eq!(next("0 0 13 * */1 a", 0), Ok(12 * 1_440));
    assert_eq!(next("0 0 */1 * 1 a", 0), Ok(4 * 1_440));
    assert_eq!(next("0 0 */2 * 1 a", 4 * 1_440), Ok(18 * 1_440));
    assert_eq!(next("0 0 1-31/2 * 1 a", 4 * 1_440), Ok(6 * 1_440));
    assert_eq!(next("0 0 29 2 */7 a", 62_147_520), Ok(83_184_480));
}

#[test]
fn bytes_that_are_no_blanks() {
    // A no-break space and others belong to the word they stand in; CR, form feed and vertical tab are 27.
    for byte in (1..=255_u8).filter(|byte| !b" \t\n#".contains(byte)) {
        let with = |text: &str| -> Vec<u8> {
            let replaced = text.bytes().map(|of| if of == b'~' { byte } else { of });
            replaced.collect()
        };
        let texts = [
            "* * * * *~a",
            "* * * * ~ a",
            "*~* * * * a",
            "* * * * * ~",
            "* * * * * a~",
            "@daily~a",
            "@daily ~",
            "~",
            "~=",
            "~ = ~",
            "a~=b",
            "a=~",
            "a=b~",
            "a = ~b~ ",
            "~a~=~b~",
            "\"~\"='~'",
            "#~",
            " ~* * * * * a",
            "5~ * * * * a",
            "* * * * * ~ a",
            "* * * * * a~ b",
            "* * * * * a~b c",
            "* * * * * a b~",
            "@daily ~:a/b c",
            "@daily a:~/b c",
            "@daily a:b/~ c",
        ];
        for text in texts {
            let table = with(text);
            everything(&table);
            everything(&[&table[..], b"\n"].concat());
        }
    }
}
