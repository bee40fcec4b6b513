use super::calls::Calls;
use super::documents;
use super::*;
use crate::random::Random;
use std::iter;

fn sets(fields: &str) -> Schedule {
    sets_in(Dialect::Rising, fields)
}

fn sets_in(dialect: Dialect, fields: &str) -> Schedule {
    let line = format!("{fields} a\n");
    match read(line.as_bytes(), dialect).expect(fields).entries[..] {
        [Entry {
            when: When::Times(schedule),
            command: b"a",
            ..
        }] => schedule,
        _ => panic!("{fields}"),
    }
}

fn fault(number: u64, line: u64, column: u64) -> Option<Fault> {
    Some(Fault {
        number,
        line,
        column,
    })
}

fn of(values: &[u64]) -> u64 {
    values.iter().fold(0, |set, value| set | 1 << value)
}

#[test]
fn fields_have_their_sets() {
    let rows: [(&str, usize, &[u64]); 18] = [
        ("* * * */2 *", 3, &[1, 3, 5, 7, 9, 11]),
        ("10-10 * * * *", 0, &[10]),
        ("* * * * 5-7", 4, &[0, 5, 6]),
        ("* * * * 7", 4, &[0]),
        ("* * * * 0,7", 4, &[0]),
        ("* * * * 1-7/2", 4, &[0, 1, 3, 5]),
        ("* * * * 1-7/3", 4, &[1, 4, 0]),
        ("* * * * */2", 4, &[0, 2, 4, 6]),
        ("* * * * */5", 4, &[0, 5]),
        ("* * * * */7", 4, &[0]),
        ("* * * * *", 4, &[0, 1, 2, 3, 4, 5, 6]),
        ("* * * * sAt", 4, &[6]),
        ("* * * DEC *", 3, &[12]),
        ("* * */10 * *", 2, &[1, 11, 21, 31]),
        ("* 0004,1-9/4 * * *", 1, &[1, 4, 5, 9]),
        ("59,0 * * * *", 0, &[0, 59]),
        ("3-50/9999 * * * *", 0, &[3]),
        (
            "* 0-23/2 * * *",
            1,
            &[0, 2, 4, 6, 8, 10, 12, 14, 16, 18, 20, 22],
        ),
    ];
    for (fields, which, values) in rows {
        assert_eq!(sets(fields).numbers()[which], of(values), "{fields}");
    }
}

/// The words of ticket 2026-13, and what they come to.
#[test]
fn ranges_over_the_join_have_their_sets() {
    let rows: [(&str, usize, &[u64]); 20] = [
        // Source 001.
        (
            "0 8-18/3,19-7 * * *",
            1,
            &[8, 11, 14, 17, 19, 20, 21, 22, 23, 0, 1, 2, 3, 4, 5, 6, 7],
        ),
        ("0 22-3/2 * * *", 1, &[22, 0, 2]),
        ("0 23-0 * * *", 1, &[23, 0]),
        ("0 20-4/3 * * *", 1, &[20, 23, 2]),
        ("0 5-5 * * *", 1, &[5]),
        ("0 20-23/2 * * *", 1, &[20, 22]),
        ("0 23-22/9999 * * *", 1, &[23]),
        ("59-1 * * * *", 0, &[59, 0, 1]),
        ("50-10/20 * * * *", 0, &[50, 10]),
        ("* * 30-2/2 * *", 2, &[30, 1]),
        ("* * 31-1 * *", 2, &[31, 1]),
        ("* * * 11-3/3 *", 3, &[11, 2]),
        ("* * * nov-FEB *", 3, &[11, 12, 1, 2]),
        ("* * * * fri-sun", 4, &[5, 6, 0]),
        ("* * * * 5-4", 4, &[0, 1, 2, 3, 4, 5, 6]),
        ("* * * * 0-sun", 4, &[0]),
        ("* * * * sun-sun", 4, &[0]),
        ("* * * * 6-sun/2", 4, &[6]),
        ("* * * * */4", 4, &[0, 4]),
        ("* * * * *", 4, &[0, 1, 2, 3, 4, 5, 6]),
    ];
    for (fields, which, values) in rows {
        let found = sets_in(Dialect::Wrapping, fields).numbers()[which];
        assert_eq!(found, of(values), "{fields}");
    }
}

#[test]
fn the_second_dialect_refuses_7_as_a_weekday_and_never_a_reversed_range() {
    let found = |table: &str| read(table.as_bytes(), Dialect::Wrapping).err();
    let rows = [
        ("* * * * 7 a\n", 6, 9),
        ("* * * * 7-7 a\n", 6, 9),
        ("* * * * 1,0-7/0 a\n", 6, 11),
        ("* * * * sun-7 a\n", 6, 9),
        ("* * * * 7-sun a\n", 6, 9),
        ("60-1/0 * * * * a\n", 6, 1),
        ("9-1/0 * * * * a\n", 8, 1),
        ("1,9-1/0 * * * * a\n", 8, 3),
        ("9-1/ * * * * a\n", 5, 1),
        ("* * 2-0 * * a\n", 6, 5),
    ];
    for (table, number, column) in rows {
        assert_eq!(found(table), fault(number, 1, column), "{table}");
    }
    let rising = read(b"9-1/0 * * * * a\n", Dialect::Rising);
    assert_eq!(rising.err(), fault(7, 1, 1));
}

/// A field without a range from high to low, without `sun` as an upper end and without 7 is the same in both.
#[test]
fn words_and_rising_fields_are_the_same_in_both_dialects() {
    let rows = ["0-59/7 1-22 1,31 feb-NOV mon-sat", "*/7 * */31 */5 */6"];
    for fields in rows {
        let [rising, wrapping] = Dialect::BOTH.map(|dialect| sets_in(dialect, fields));
        assert_eq!(rising, wrapping, "{fields}");
    }
    for word in samples::WORDS {
        let line = format!("{word} a\n");
        let [rising, wrapping] =
            Dialect::BOTH.map(|dialect| read(line.as_bytes(), dialect).expect(word).entries);
        assert_eq!(rising, wrapping);
    }
}

#[test]
fn any_number_but_0_is_the_second_dialect() {
    assert_eq!(Dialect::of(0), Dialect::Rising);
    for number in [1, 2, 1 << 8, 1 << 32, 1 << 63, u64::MAX] {
        assert_eq!(Dialect::of(number), Dialect::Wrapping);
    }
    assert_eq!(Dialect::BOTH.map(Dialect::number), [0, 1]);
}

#[test]
fn a_star_is_what_is_written_as_one() {
    let rows = [
        ("* * * * *", [true, true, true, true, true]),
        ("* * */2 * 1", [true, true, true, true, false]),
        ("* * 1 * */7", [true, true, false, true, true]),
        ("*/60 0 1-31 */1 0-7", [true, false, false, true, false]),
        ("0-59 */24 1 1 1", [false, true, false, false, false]),
        ("0-59 0-23 1-31 1-12 0-7", [false; 5]),
    ];
    for (fields, stars) in rows {
        assert_eq!(sets(fields).stars, stars, "{fields}");
    }
}

#[test]
fn refusals_have_their_places() {
    let long = |length: usize| format!("#{}", "x".repeat(length - 1));
    let entries = |count: usize| "@reboot a\n".repeat(count);
    let rows = [
        (String::new(), None),
        ("\n".repeat(TABLE_BYTES), None),
        ("\n".repeat(TABLE_BYTES + 1), fault(1, 0, 0)),
        (long(1_000), fault(26, 1, 1_001)),
        (long(1_000) + "\n", None),
        (long(1_001), fault(2, 1, 1_001)),
        ("# \0".into(), fault(3, 1, 3)),
        // A last line without a newline, unless it has another fault; the empty table has no line.
        ("A=b".into(), fault(26, 1, 4)),
        ("A=b\n\n ".into(), fault(26, 3, 2)),
        ("60\nA=b".into(), fault(6, 1, 1)),
        ("A=b\n60".into(), fault(6, 2, 1)),
        (entries(512) + "@reboot a", fault(12, 513, 1)),
        (entries(511) + "@reboot a", fault(26, 512, 10)),
        // Control bytes straight after byte 0, in comments too.
        ("# \r\n".into(), fault(27, 1, 3)),
        ("\x01\0\n".into(), fault(3, 1, 2)),
        ("60\x7f".into(), fault(27, 1, 3)),
        ("A=\u{80}\t\u{a0}~\n".into(), None),
        ("\n\x1f".into(), fault(27, 2, 1)),
        ("5 5".into(), fault(4, 1, 4)),
        ("60 5".into(), fault(6, 1, 1)),
        ("5 5 ".into(), fault(4, 1, 5)),
        ("5/2 * * * * a".into(), fault(5, 1, 1)),
        ("*,5 * * * * a".into(), fault(5, 1, 1)),
        ("0 0 * * mon-fri a\n".into(), None),
        ("0 0 * jan,jul * a\n".into(), None),
        ("0 0 * * fri-mon a".into(), fault(7, 1, 9)),
        ("0 0 * * mon-0 a".into(), fault(7, 1, 9)),
        ("0 0 * * mon/2 a".into(), fault(5, 1, 9)),
        ("0 0 * * */mon a".into(), fault(5, 1, 9)),
        ("0 0 * * jan a".into(), fault(5, 1, 9)),
        ("0 0 * 3,mon * a".into(), fault(5, 1, 7)),
        ("60 0 * * * a".into(), fault(6, 1, 1)),
        ("1,70,x 0 * * * a".into(), fault(5, 1, 1)),
        ("1,70,9-8 0 * * * a".into(), fault(6, 1, 3)),
        ("10-9 0 * * * a".into(), fault(7, 1, 1)),
        ("\n 5,*/0 0 * * * a".into(), fault(5, 2, 2)),
        ("\n */0 0 * * * a".into(), fault(8, 2, 2)),
        ("0 0 * * *".into(), fault(9, 1, 10)),
        ("0 0 * * *\t ".into(), fault(9, 1, 12)),
        ("@reboot".into(), fault(9, 1, 8)),
        ("@reboot%x".into(), fault(10, 1, 1)),
        (" @".into(), fault(10, 1, 2)),
        ("\ta b=c".into(), fault(11, 1, 2)),
        (entries(128), None),
        (entries(129), None),
        (entries(512), None),
        (entries(513), fault(12, 513, 1)),
        (entries(512) + "\n# no entry\na=b\n", None),
        (entries(512) + " @reboot", fault(9, 513, 9)),
    ];
    for (table, expected) in rows {
        assert_eq!(
            read(table.as_bytes(), Kind::User).err(),
            expected,
            "{table}"
        );
    }
}

#[test]
fn any_number_but_0_is_a_system_table() {
    assert_eq!(Kind::of(0), Kind::User);
    for number in [1, 2, 1 << 8, 1 << 32, 1 << 63, u64::MAX] {
        assert_eq!(Kind::of(number), Kind::System);
    }
    assert_eq!(Kind::BOTH.map(Kind::number), [0, 1]);
}

#[test]
fn system_entries_have_their_parts() {
    for (line, expected) in documents::SYSTEM_ENTRIES {
        // The same behind other lines: places count in the table.
        for before in ["", "A=b\n\n@reboot r a\n"] {
            let table = format!("{before}{line}\n");
            let lines = before.matches('\n').count() as u64;
            let found = match read(table.as_bytes(), Kind::System) {
                Ok(read) => {
                    let entry = read.entries.last().expect("an entry").clone();
                    let text = |part: Part| &table[part.offset..part.offset + part.length];
                    let parts = entry.column.parts().map(|part| part.map(text));
                    Ok((parts.map(|part| part.map(str::to_string)), entry.command))
                }
                Err(fault) => {
                    assert_eq!(fault.line, lines + 1, "{table}");
                    Err((fault.number, fault.column))
                }
            };
            let expected = expected.map(|(parts, command)| {
                let parts = parts.map(|part| part.map(str::to_string));
                (parts, command.as_bytes())
            });
            assert_eq!(found, expected, "{table}");
        }
    }
}

/// Where the parts of a column stand; an absent one is at 0, with length 0.
#[test]
fn parts_are_shown_by_their_places() {
    let table = b"\n5 * * * * ab:c/def x\n\t@daily  a/b\tc\n@reboot a b\n";
    let system = Calls::of(table, Kind::System);
    assert_eq!(system.user_column(0), Ok([[11, 2], [14, 1], [16, 3]]));
    assert_eq!(system.user_column(1), Ok([[31, 1], [0, 0], [33, 1]]));
    assert_eq!(system.user_column(2), Ok([[45, 1], [0, 0], [0, 0]]));
    let user = Calls::of(table, Kind::User);
    for entry in 0..3 {
        assert_eq!(user.user_column(entry), Ok([[0, 0]; 3]));
    }
    let shells = [&system, &user].map(|calls| calls.command(2).map(|command| command.shell));
    assert_eq!(shells, [Ok(b"b".to_vec()), Ok(b"a b".to_vec())]);
    let refused = Calls::of(b"* * * * * -", Kind::System);
    for entry in [3, 1 << 16, 1 << 32, u64::MAX] {
        assert_eq!(system.user_column(entry), Err(13));
        assert_eq!(user.user_column(entry), Err(13));
        assert_eq!(refused.user_column(entry), Err(20));
    }
}

/// Every byte as the first, the only and the last of a name, and in the midst of it.
#[test]
fn names_have_letters_digits_and_three_marks() {
    for byte in 1..=255_u8 {
        let of_a_name = matches!(byte, b'a'..=b'z' | b'A'..=b'Z' | b'0'..=b'9' | b'_' | b'.');
        for (column, is_good) in [
            (vec![byte], of_a_name),
            (vec![byte, b'a'], of_a_name),
            (vec![b'a', byte], of_a_name || byte == b'-'),
            (
                vec![b'a', byte, b'b'],
                of_a_name || matches!(byte, b'-' | b':' | b'/'),
            ),
            (
                vec![b'a', b'/', b'b', byte, b'c'],
                of_a_name || byte == b'-',
            ),
        ] {
            if b" \t\n".contains(&byte) || byte.is_ascii_control() {
                continue;
            }
            let line = [b"@daily ", &column[..], b" x\n"].concat();
            let expected = if is_good { None } else { fault(20, 1, 8) };
            let found = read(&line, Kind::System).err();
            assert_eq!(found, expected, "{}", line.escape_ascii());
        }
    }
}

/// A table without entries is the same in both kinds.
#[test]
fn only_entries_differ() {
    let tables: [&[u8]; 5] = [b"", b"A=b\n# c\n", b"a", b"@x", b"60"];
    for table in tables {
        let [user, system] = Kind::BOTH.map(|kind| read(table, kind));
        assert_eq!(user.as_ref().err(), system.as_ref().err());
        let settings = [user, system].map(|table| table.map(|table| table.settings).ok());
        assert_eq!(settings[0], settings[1]);
    }
}

#[test]
fn settings_have_their_parts() {
    let rows: [(&str, &str, &str); 8] = [
        ("A=b", "A", "b"),
        (" A\t = b c\t ", "A", "b c"),
        ("A=", "A", ""),
        ("'A b' = \" c \" ", "A b", " c "),
        ("A='it\"s'", "A", "it\"s"),
        ("A=b'", "A", "b'"),
        ("A==", "A", "="),
        ("\"=\"=''", "=", ""),
    ];
    for (line, name, value) in rows.into_iter().chain(documents::SETTINGS) {
        let text = format!("\n{line}\n# {line}\n");
        let table = read(text.as_bytes(), Kind::User).expect(line);
        let setting = table.setting(2).expect(line);
        let part = |part: Part| &text[part.offset..part.offset + part.length];
        assert_eq!((part(setting.name), part(setting.value)), (name, value));
        assert!(table.setting(1).is_none() && table.setting(3).is_none());
    }
    let (zone, column) = documents::NAMED_ZONE;
    assert_eq!(
        read(zone.as_bytes(), Kind::User).err(),
        fault(25, 1, column)
    );
    let empty = read(b"A= \t\n", Kind::System).expect("a setting");
    let empty = empty.setting(1);
    assert_eq!(empty.map(|setting| setting.value.offset), Some(4));
}

#[test]
fn the_documents_examples() {
    for (line, expected) in documents::ENTRIES {
        let table = format!("{line}\n");
        let calls = Calls::of(table.as_bytes(), Kind::User);
        let found = match (calls.next(0, 0), expected) {
            (Err(number), _) => Err((number, calls.fault_column())),
            (Ok(first), Ok(firings)) => {
                let later = |&minute: &u64| calls.next(0, minute).ok();
                let chain = iter::successors(Some(first), later);
                Ok(chain.take(firings.len()).collect::<Vec<u64>>())
            }
            (Ok(first), Err(_)) => Ok(vec![first]),
        };
        assert_eq!(found, expected.map(Vec::from), "{line}");
    }
}

#[test]
fn samples_are_what_they_say() {
    let mut random = Random::seeded();
    for rules in Rules::ALL.repeat(10_000) {
        let mut table = samples::table(&mut random, rules, 3);
        let shown = String::from_utf8_lossy(&table).into_owned();
        assert!(read(&table, rules).is_ok(), "{rules:?} {shown}");
        let lines = lines(&table).count() as u64;
        let (line, number, column) = samples::bad_line(&mut random, rules);
        table.extend(&line);
        let shown = String::from_utf8_lossy(&table).into_owned();
        let found = read(&table, rules).err();
        assert_eq!(found, fault(number, lines + 1, column), "{rules:?} {shown}");
        let count = 1 + random.below(3);
        let cut = samples::cut_table(&mut random, rules, count);
        let found = read(&cut, rules)
            .err()
            .map(|fault| [fault.number, fault.line]);
        assert_eq!(found, Some([26, count]), "{rules:?} {}", cut.escape_ascii());
    }
}
