//! System tables: the user column, its parts as they are shown, and which kind a number means.

use differential::samples::ended;
use differential::table::Compared;
use reference::random::Random;
use reference::table::{samples, Kind, ENTRIES, NAME_BYTES, TABLE_BYTES};

/// Numbers of system tables: all but 0 are.
fn system_kinds() -> Vec<u64> {
    let bits = (0..64).map(|bit| 1 << bit);
    bits.chain([3, 255, (1 << 32) - 1, u64::MAX - 1, u64::MAX])
        .collect()
}

/// The parts of the column of a table's only entry, as texts: user, group and class, each empty where it is absent.
fn shown(table: &[u8]) -> Result<[Vec<u8>; 3], [u64; 3]> {
    let compared = Compared::system(table);
    if let Some(fault) = compared.fault() {
        return Err(fault);
    }
    assert_eq!(compared.check(), Ok(1));
    let parts = compared.user_column(0).expect("an entry");
    Ok(parts.map(|[at, length]| table[at as usize..(at + length) as usize].to_vec()))
}

/// What a column means, by its form alone: a name, perhaps a colon and a name, perhaps a slash and a name.
fn meant(column: &[u8]) -> Option<[Vec<u8>; 3]> {
    let is_name = |text: &[u8]| {
        let of_a_name = |byte: &u8| matches!(byte, b'a'..=b'z' | b'A'..=b'Z' | b'0'..=b'9' | b'_' | b'-' | b'.');
        !text.is_empty() && text.len() <= 32 && text[0] != b'-' && text.iter().all(of_a_name)
    };
    let mark = |byte: u8| -> Vec<usize> {
        let places = column.iter().enumerate();
        places
            .filter(|(_, of)| **of == byte)
            .map(|(at, _)| at)
            .collect()
    };
    let end = column.len();
    let parts = match (&mark(b':')[..], &mark(b'/')[..]) {
        ([], []) => [Some(0..end), None, None],
        ([colon], []) => [Some(0..*colon), Some(colon + 1..end), None],
        ([], [slash]) => [Some(0..*slash), None, Some(slash + 1..end)],
        ([colon], [slash]) if colon < slash => [
            Some(0..*colon),
            Some(colon + 1..*slash),
            Some(slash + 1..end),
        ],
        _ => return None,
    };
    let texts = parts.map(|part| part.map(|part| column[part].to_vec()));
    let good = texts.iter().flatten().all(|text| is_name(text));
    good.then(|| texts.map(Option::unwrap_or_default))
}

/// A column in an entry, with a command and without: its parts, 20 at its first byte, or 9 behind it.
fn judge(column: &[u8]) {
    for time in ["* * * * * ", "@reboot\t"] {
        let line = [time.as_bytes(), column].concat();
        let malformed = [20, 1, time.len() as u64 + 1];
        let expected = meant(column).ok_or(malformed);
        let found = shown(&[&line[..], b" c\n"].concat());
        assert_eq!(found, expected, "{}", line.escape_ascii());
        let no_command = [9, 1, line.len() as u64 + 1];
        let fault = expected.map_or(malformed, |_| no_command);
        let found = Compared::system(&line).fault();
        assert_eq!(found, Some(fault), "{}", line.escape_ascii());
    }
}

#[test]
fn every_byte_at_every_place_of_a_column() {
    let columns: [&[u8]; 5] = [b"a", b"ab", b"a:bc", b"a/bc", b"ab:cd/ef"];
    let blank = |byte: &u8| b" \t\n".contains(byte);
    for column in columns {
        judge(column);
        for byte in (1..=255).filter(|byte| !blank(byte) && !byte.is_ascii_control()) {
            for at in 0..=column.len() {
                let mut longer = column.to_vec();
                longer.insert(at, byte);
                judge(&longer);
                if at < column.len() {
                    let mut changed = column.to_vec();
                    changed[at] = byte;
                    judge(&changed);
                }
            }
        }
    }
}

/// A blank ends the column, and a byte 0 or a newline comes before all that.
#[test]
fn blanks_zeros_and_newlines_in_a_column() {
    for blank in [" ", "\t"] {
        let line = format!("* * * * * ab{blank}cd:e f\n");
        assert_eq!(
            shown(line.as_bytes()),
            Ok([b"ab".to_vec(), Vec::new(), Vec::new()])
        );
        let line = format!("* * * * * ab:{blank}cd e");
        assert_eq!(shown(line.as_bytes()), Err([20, 1, 11]));
    }
    assert_eq!(shown(b"* * * * * a\0 b"), Err([3, 1, 12]));
    assert_eq!(shown(b"* * * * * a\n b"), Err([9, 1, 12]));
    assert_eq!(shown(b"* * * * * a:\n b"), Err([20, 1, 11]));
    assert_eq!(shown(b"* * * * *\na b"), Err([9, 1, 10]));
}

#[test]
fn names_of_every_length() {
    let name = |length: usize| "n".repeat(length);
    for length in (0..=NAME_BYTES + 3).chain([63, 64, 65, 255, 256, 257, 300, 900]) {
        for column in [
            format!("{}:a/b", name(length)),
            format!("a:{}/b", name(length)),
            format!("a:b/{}", name(length)),
            format!("a:{}", name(length)),
            format!("a/{}", name(length)),
            format!("{0}:{0}/{0}", name(length.min(200))),
        ] {
            judge(column.as_bytes());
        }
        if length > 0 {
            judge(name(length).as_bytes());
        }
    }
    // Up to the line's limit.
    for length in [988, 989, 990] {
        let line = format!("* * * * * {}", name(length));
        let fault = Compared::system(line.as_bytes()).fault();
        assert_eq!(fault, Some([20, 1, 11]));
    }
    let line = format!("* * * * * {}", name(991));
    let fault = Compared::system(line.as_bytes()).fault();
    assert_eq!(fault, Some([2, 1, 1_001]));
}

/// Every text of up to so many of these bytes as a column.
#[test]
fn short_texts_of_the_bytes_that_columns_are_made_of() {
    let mut columns: Vec<Vec<u8>> = vec![Vec::new()];
    for _ in 0..6 {
        columns = columns
            .iter()
            .flat_map(|text| b"a:/-%".map(|byte| [&text[..], &[byte]].concat()))
            .collect();
        for column in &columns {
            judge(column);
        }
    }
}

/// After the fields, and before 9.
#[test]
fn a_bad_column_comes_after_the_time_and_before_the_command() {
    let times: [(&str, Option<[u64; 2]>); 9] = [
        ("* * * * *", None),
        ("@reboot", None),
        ("60 * * * *", Some([6, 1])),
        ("* * * * 9", Some([6, 9])),
        ("* * * * 3-2", Some([7, 9])),
        ("* * * * */0", Some([8, 9])),
        ("* * * * x", Some([5, 9])),
        ("@", Some([10, 1])),
        ("@never", Some([10, 1])),
    ];
    for (time, fault) in times {
        for (column, malformed) in [
            ("", false),
            (" u", false),
            (" u:g/l", false),
            (" -", true),
            (" u/l:g", true),
            ("\tu:", true),
        ] {
            for end in ["", " ", "\t\t", " c", " -", " % ", "\tu/l:g"] {
                let line = format!("{time}{column}{end}");
                let table = ended(&line);
                let compared = Compared::system(&table);
                // Without a column, what ends the line stands in its place.
                let bad = malformed || column.is_empty() && [" -", " % ", "\tu/l:g"].contains(&end);
                let place = time.len() + 2;
                let has_command = !column.is_empty() && !end.trim().is_empty();
                let expected = match fault {
                    Some([number, column]) => Some([number, 1, column]),
                    None if bad => Some([20, 1, place as u64]),
                    None if has_command => None,
                    None => Some([9, 1, line.len() as u64 + 1]),
                };
                assert_eq!(compared.fault(), expected, "{line}");
            }
        }
    }
    // Fewer than five fields: what could be a user is a field.
    for (line, fault) in [
        ("* * * *", [4, 1, 8]),
        ("* * * * u", [5, 1, 9]),
        ("* * * * u c", [5, 1, 9]),
        ("* * * * -u", [5, 1, 9]),
    ] {
        assert_eq!(Compared::system(line.as_bytes()).fault(), Some(fault));
    }
}

/// Where the parts stand: in the table, not in the line.
#[test]
fn parts_are_places_in_the_table() {
    let befores = ["", "\n", "A=b\n# c\n", "@reboot u:g/l first\n\t\n"];
    for before in befores {
        for indent in ["", " \t"] {
            for (time, blanks) in [
                ("* * * * *", " "),
                ("1\t2 3  4 5", "\t \t"),
                ("@daily", "  "),
            ] {
                for end in ["\n", "\n\n", "\n* * * * * last:one/here a%b\n"] {
                    let start = format!("{before}{indent}{time}{blanks}");
                    let table = format!("{start}ab:cde/fghi\tc{end}");
                    let compared = Compared::system(table.as_bytes());
                    let entry = u64::from(before.starts_with('@'));
                    let at = start.len() as u64;
                    let parts = [[at, 2], [at + 3, 3], [at + 7, 4]];
                    assert_eq!(compared.user_column(entry), Ok(parts), "{table}");
                }
            }
        }
    }
}

/// A part that isn't there is at 0, with length 0.
#[test]
fn absent_parts() {
    let table = b"A=b\n* * * * * u c\n@daily u:g c\n@reboot u/l c\n";
    let compared = Compared::system(table);
    assert_eq!(compared.user_column(0), Ok([[14, 1], [0, 0], [0, 0]]));
    assert_eq!(compared.user_column(1), Ok([[25, 1], [27, 1], [0, 0]]));
    assert_eq!(compared.user_column(2), Ok([[39, 1], [0, 0], [41, 1]]));
    let user = Compared::of(table);
    for entry in 0..3 {
        assert_eq!(user.user_column(entry), Ok([[0, 0]; 3]));
    }
    for compared in [&compared, &user] {
        for entry in [3, 4, 1 << 16, 1 << 32, (1 << 32) + 1, u64::MAX] {
            assert_eq!(compared.user_column(entry), Err(13));
        }
    }
    for (table, number) in [(&b"* * * * * -u c"[..], 20), (b"@daily u", 9), (b"60", 6)] {
        for entry in [0, 1, u64::MAX] {
            assert_eq!(Compared::system(table).user_column(entry), Err(number));
        }
    }
}

#[test]
fn the_column_of_each_entry_is_its_own() {
    let mut random = Random::seeded();
    for _ in 0..100 {
        let mut table = Vec::new();
        let mut columns = Vec::new();
        while columns.len() < ENTRIES {
            let ignored: [&[u8]; 4] = [b"", b"\n", b"# u:g/l\n", b"u=g/l\n"];
            table.extend(random.pick(&ignored));
            let column = samples::user_column(&mut random);
            let time = random.pick(&["@daily ", "* * * * *\t", "@reboot  "]);
            if table.len() + 120 > TABLE_BYTES {
                break;
            }
            table.extend(time.bytes());
            columns.push((table.len(), column.clone()));
            table.extend(format!("{column} c\n").bytes());
        }
        let compared = Compared::system(&table);
        assert_eq!(compared.check(), Ok(columns.len() as u64));
        for (entry, (at, column)) in columns.iter().enumerate() {
            let parts = compared.user_column(entry as u64).expect("an entry");
            assert_eq!(parts[0][0], *at as u64);
            let texts = parts.map(|[at, length]| table[at as usize..][..length as usize].to_vec());
            assert_eq!(Some(texts), meant(column.as_bytes()), "{column}");
        }
    }
}

/// 0 is a user table, and any other number a system table; every call says the same for all of them.
#[test]
fn every_number_is_a_kind() {
    let tables: [&[u8]; 7] = [
        b"* * * * * a\n",
        b"* * * * * a b\n",
        b"@reboot u:g/l c%d\nA = b\n",
        b"@daily -x y\n",
        b"A=b\n",
        b"@hourly u:\n60\n",
        b"",
    ];
    for table in tables {
        let user = Compared::under(table, 0).fault();
        let system = Compared::under(table, 1).fault();
        Compared::under(table, 0).everything(&mut Random::new(4));
        for kind in system_kinds() {
            let compared = Compared::under(table, kind);
            assert_eq!(compared.fault(), system, "kind {kind}");
            compared.everything(&mut Random::new(4));
        }
        assert_eq!(user, Compared::of(table).fault());
    }
    // The two do differ.
    assert_eq!(Compared::of(b"* * * * * a\n").fault(), None);
    for kind in system_kinds() {
        let fault = Compared::under(b"* * * * * a\n", kind).fault();
        assert_eq!(fault, Some([9, 1, 12]));
    }
}

/// A system table without its columns is a user table that means the same.
#[test]
fn the_kinds_agree_on_all_but_the_column() {
    let mut random = Random::seeded();
    for _ in 0..3_000 {
        let fields = samples::fields(&mut random).join(" ");
        let column = samples::user_column(&mut random);
        let user = format!("A=b\n{fields} c%d\n@reboot e\n");
        let system = format!("A=b\n{fields} {column} c%d\n@reboot {column}\te\n");
        let tables = [
            Compared::under(user.as_bytes(), Kind::User.number()),
            Compared::under(system.as_bytes(), Kind::System.number()),
        ];
        for entry in 0..3 {
            for _ in 0..3 {
                let minute = random.below(1 << 33);
                let due = tables.each_ref().map(|table| table.due(entry, minute));
                assert_eq!(due[0], due[1], "{system}");
                let next = tables.each_ref().map(|table| table.next(entry, minute));
                assert_eq!(next[0], next[1], "{system}");
            }
            let input = tables.each_ref().map(|table| table.stdin_length(entry));
            assert_eq!(input[0], input[1], "{system}");
            let needed = tables.each_ref().map(|table| table.needed(entry));
            assert_eq!(needed[0], needed[1], "{system}");
        }
        let settings = tables.each_ref().map(|table| table.setting(1));
        assert_eq!(settings[0], settings[1], "{system}");
    }
}
