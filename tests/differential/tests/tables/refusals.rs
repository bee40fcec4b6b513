//! Every refusal of a table of either kind at every place where it can stand, and which of two comes first.

use differential::samples::of_kind;
use differential::table::Compared;
use reference::random::Random;
use reference::table::samples::WORDS;
use reference::table::{Kind, ENTRIES};

/// Refused, by number, line and column. Every call then refuses so.
fn refused(kind: Kind, table: &[u8], fault: [u64; 3]) {
    let compared = Compared::under(table, kind);
    let shown = table.escape_ascii();
    assert_eq!(compared.fault(), Some(fault), "{shown}");
    let number = fault[0];
    for any in [0, 1, 1 << 32, u64::MAX] {
        assert_eq!(compared.due(any, any), Err(number));
        assert_eq!(compared.next(any, any), Err(number));
        assert_eq!(compared.stdin_length(any), Err(number));
        assert_eq!(compared.user_column(any), Err(number));
        assert_eq!(compared.setting(any), Err(number));
        assert_eq!(compared.split_command(any, [0, 0]), Err(number));
        assert_eq!(compared.split_command(any, [9, 9]), Err(number));
    }
}

/// Refused so in both kinds.
fn refused_in_both(table: &[u8], fault: [u64; 3]) {
    for kind in Kind::BOTH {
        refused(kind, table, fault);
    }
}

fn good(kind: Kind, table: &[u8], entries: u64) {
    let compared = Compared::under(table, kind);
    assert_eq!(compared.fault(), None);
    assert_eq!(compared.check(), Ok(entries));
}

/// A line, the number of its refusal, and its column.
type Bad = (Vec<u8>, u64, u64);

/// Bad fields: for each of the five, the number and how many bytes of the field stand before the place.
fn bad_fields() -> [Vec<(String, u64, usize)>; 5] {
    let names = ["", "", "", "jan", "sun"];
    [(0, 59), (0, 23), (1, 31), (1, 12), (0, 7)]
        .into_iter()
        .zip(names)
        .map(|((first, last), name)| {
            let over = last + 1;
            let before_last = last - 1;
            let mut rows = vec![
                ("*,5".into(), 5, 0),
                ("5/2".into(), 5, 0),
                ("*/".into(), 5, 0),
                ("*/00001".into(), 5, 0),
                ("**".into(), 5, 0),
                ("1,".into(), 5, 0),
                ("1,,2".into(), 5, 0),
                ("1-".into(), 5, 0),
                ("1-2-3".into(), 5, 0),
                ("1-2/".into(), 5, 0),
                ("1-2/3/4".into(), 5, 0),
                ("00001".into(), 5, 0),
                (format!("{over},9-8,1-2/0,x"), 5, 0),
                ("1-2,1-2/0,*".into(), 5, 0),
                (format!("1,{name}x"), 5, 0),
                (format!("1-{name}x"), 5, 0),
                (format!("*/{name}"), 5, 0),
                (format!("{over}"), 6, 0),
                (format!("{over}-{over}"), 6, 0),
                (format!("1-{over}"), 6, 0),
                (format!("{over}-1/0"), 6, 0),
                ("1-9999/0".into(), 6, 0),
                (format!("1,2-3,{over}"), 6, 6),
                (format!("1,{over},9-8,1-2/0"), 6, 2),
                (format!("{last}-{before_last}"), 7, 0),
                (format!("{last}-{first}/0"), 7, 0),
                (format!("1-2/3,{last}-{before_last},9999"), 7, 6),
                ("1-2/0".into(), 8, 0),
                ("*/0".into(), 8, 0),
                ("*/0000".into(), 8, 0),
                (
                    format!("{last},{first}-{last}/00,9999"),
                    8,
                    last.to_string().len() + 1,
                ),
            ];
            if first == 1 {
                rows.push(("0".into(), 6, 0));
                rows.push(("0-1".into(), 6, 0));
                rows.push(("1-2,00".into(), 6, 4));
            }
            rows
        })
        .collect::<Vec<_>>()
        .try_into()
        .expect("five fields")
}

/// Every bad field in its place in a line, with all ways to indent and to go on.
fn lines_with_bad_fields() -> Vec<Bad> {
    let mut lines = Vec::new();
    for (which, fields) in bad_fields().into_iter().enumerate() {
        for (field, number, offset) in fields {
            for (indent, blanks) in [("", " "), (" \t", "\t"), ("\t", "  \t ")] {
                let before = [indent, &["1", blanks].concat().repeat(which)].concat();
                let column = (before.len() + offset + 1) as u64;
                for after in ["", " ", " 1", " 1 1 1 1 1 a", " x x x x", "\t60 */0"] {
                    let line = format!("{before}{field}{after}");
                    lines.push((line.into_bytes(), number, column));
                }
            }
        }
    }
    lines
}

const UNKNOWN_WORDS: [&str; 9] = [
    "@",
    "@Reboot",
    "@DAILY",
    "@dail",
    "@dailyx",
    "@reboot%x",
    "@@",
    "@1",
    "@daily\u{a0}",
];

const BAD_SETTINGS: [&str; 26] = [
    "a",
    "a b",
    "a b=c",
    "=",
    "=a",
    "\"\"=a",
    "''=a",
    "\"a",
    "'a=b",
    "\"a'=b",
    "\"a\"",
    "\"a\"b=c",
    "a\"=c",
    "a'b'=c",
    "'a'\"b\"=c",
    "a=\"",
    "a='",
    "a=\"b",
    "a='b\"",
    "a=\"b\"c",
    "a='b''",
    "a=\"\" #",
    "mon",
    "-5 * * * * a",
    "\u{a0}",
    "$ * * * * a",
];

const BAD_COLUMNS: [&str; 24] = [
    ":", "/", "-", "a:", "a/", ":a", "/a", "a::b", "a//b", "a:b:c", "a/b/c", "a/c:b", "a:b/c:d",
    "a:/c", "a:b/", "-a", "a:-b", "a/-c", "a:b/-", "a%b", "a\u{a0}", "a=b", "\"a\"", "#a",
];

/// Bad user columns, at every length of time before them, with a command behind them or none.
fn lines_with_bad_columns() -> Vec<Bad> {
    let mut lines = Vec::new();
    let long = |length: usize| "n".repeat(length);
    let too_long = [
        long(33),
        format!("a:{}", long(33)),
        format!("a/{}", long(33)),
        format!("{}:{}/{}", long(32), long(32), long(33)),
        format!("{}:{}/{}", long(32), long(33), long(32)),
        format!("{}:{}/{}", long(33), long(32), long(32)),
        long(300),
    ];
    for column in BAD_COLUMNS.map(str::to_string).into_iter().chain(too_long) {
        for time in ["* * * * *", "\t1 2\t3 4 sun", " @reboot", "@daily"] {
            for blanks in [" ", " \t "] {
                for after in ["", " ", " a", "\ta%b", " a:b c", " -"] {
                    let line = format!("{time}{blanks}{column}{after}");
                    let place = time.len() + blanks.len() + 1;
                    lines.push((line.into_bytes(), 20, place as u64));
                }
            }
        }
    }
    lines
}

/// Users without a command.
fn lines_with_no_command() -> Vec<Bad> {
    let mut lines = Vec::new();
    for column in ["a", "a:b", "a/c", "a:b/c", "cmd", &"n".repeat(32)] {
        for time in ["* * * * *", "\t1 2\t3 4 sun", " @reboot", "@daily"] {
            for end in ["", " ", "\t \t"] {
                let line = format!("{time} {column}{end}");
                let place = line.len() as u64 + 1;
                lines.push((line.into_bytes(), 9, place));
            }
        }
    }
    lines
}

/// Every bad line of a table of a kind.
fn bad_lines(kind: Kind) -> Vec<Bad> {
    let of_both = [lines_with_bad_fields(), other_bad_lines()].concat();
    match kind {
        Kind::User => of_both,
        Kind::System => [of_both, lines_with_bad_columns(), lines_with_no_command()].concat(),
    }
}

/// Bad lines of other sorts, which are bad in tables of both kinds.
fn other_bad_lines() -> Vec<Bad> {
    let long = |start: &str, byte: u8, length: usize| {
        let mut line = start.as_bytes().to_vec();
        line.resize(length, byte);
        line
    };
    let mut lines = vec![
        (long("#", b'x', 1_001), 2, 1_001),
        (long("", b' ', 1_001), 2, 1_001),
        (long("a=", b'x', 5_000), 2, 1_001),
        (long("* * * * * ", b'x', 1_001), 2, 1_001),
        (long("60 ", b'x', 1_001), 2, 1_001),
        (long("@x ", 0, 1_002), 2, 1_001),
        (b"\0".to_vec(), 3, 1),
        (b"#\0".to_vec(), 3, 2),
        (b" \t\0".to_vec(), 3, 3),
        (b"60 60\0\0".to_vec(), 3, 6),
        (b"a\0b".to_vec(), 3, 2),
        (b"* * * * * a\0".to_vec(), 3, 12),
        (b"@x \0".to_vec(), 3, 4),
        (b"\x01".to_vec(), 27, 1),
        (b"#\x7f".to_vec(), 27, 2),
        (b" \t\r".to_vec(), 27, 3),
        (b"60 60\x1f\x08".to_vec(), 27, 6),
        (b"a\x0bb\x0c".to_vec(), 27, 2),
        (b"* * * * * a\r".to_vec(), 27, 12),
        (b"@x \x1b".to_vec(), 27, 4),
        (b"\x01#\0".to_vec(), 3, 3),
        (b"#\0\x01".to_vec(), 3, 2),
    ];
    for fields in 1..5 {
        for (blanks, end) in [(" ", ""), ("\t", "\t"), (" \t ", "  ")] {
            let line = format!("{}{end}", vec!["1"; fields].join(blanks));
            let column = line.len() as u64 + 1;
            lines.push((line.into_bytes(), 4, column));
        }
    }
    let times = ["1 1 1 1 1", "* * * * *", " 1 1 1 1 sun", "\t@yearly"];
    for time in times.into_iter().chain(WORDS) {
        for end in ["", " ", "\t \t"] {
            let line = format!("{time}{end}");
            let column = line.len() as u64 + 1;
            lines.push((line.into_bytes(), 9, column));
        }
    }
    for word in UNKNOWN_WORDS {
        for (indent, end) in [("", ""), (" ", " "), ("\t ", " a"), ("", "\ta b")] {
            let line = format!("{indent}{word}{end}");
            lines.push((line.into_bytes(), 10, indent.len() as u64 + 1));
        }
    }
    for setting in BAD_SETTINGS {
        for (indent, end) in [("", ""), (" ", " "), ("\t ", " \t")] {
            let line = format!("{indent}{setting}{end}");
            lines.push((line.into_bytes(), 11, indent.len() as u64 + 1));
        }
    }
    lines
}

/// `~` is a system table's user.
const GOOD_LINES: [&str; 6] = [
    "# comment",
    "",
    "A = \"b\" ",
    "* * * * * ~a%b",
    "\t",
    "@reboot ~c",
];

#[test]
fn every_bad_line_at_every_place_of_a_table() {
    for kind in Kind::BOTH {
        let good_lines = GOOD_LINES.map(|line| of_kind(line, kind).into_bytes());
        for (line, number, column) in bad_lines(kind) {
            for at in 0..=good_lines.len() {
                let mut lines = good_lines.to_vec();
                lines.insert(at, line.clone());
                let mut table = lines.join(&b'\n');
                let fault = [number, at as u64 + 1, column];
                refused(kind, &table, fault);
                table.push(b'\n');
                let compared = Compared::under(&table, kind);
                assert_eq!(compared.fault(), Some(fault));
            }
        }
    }
}

#[test]
fn the_first_of_two_bad_lines_counts() {
    let bad_lines = Kind::BOTH.map(bad_lines);
    let mut random = Random::seeded();
    for kind in Kind::BOTH.repeat(15_000) {
        let bad_lines = &bad_lines[kind.number() as usize];
        let [first, second] =
            [(); 2].map(|_| &bad_lines[random.below(bad_lines.len() as u64) as usize]);
        let between = of_kind(random.pick(&GOOD_LINES), kind);
        let table = [b"a=b", &first.0[..], between.as_bytes(), &second.0].join(&b'\n');
        let fault = Compared::under(&table, kind).fault();
        assert_eq!(
            fault,
            Some([first.1, 2, first.2]),
            "{}",
            table.escape_ascii()
        );
    }
}

#[test]
fn the_first_of_two_bad_fields_counts() {
    let fields = bad_fields();
    for left in 0..5 {
        for right in left + 1..5 {
            for (bad_left, number, offset) in &fields[left] {
                for (bad_right, ..) in &fields[right] {
                    let mut words = ["1"; 5];
                    words[left] = bad_left;
                    words[right] = bad_right;
                    // Without a command, too, and before a bad user.
                    for (end, kind) in [(" a", 0), ("", 0), (" a:", 1), (" a b", 1)] {
                        let line = format!("{}{end}", words.join(" "));
                        let column = 2 * left + offset + 1;
                        let fault = Compared::under(line.as_bytes(), kind).fault();
                        assert_eq!(fault, Some([*number, 1, column as u64]), "{line}");
                    }
                }
            }
        }
    }
}

#[test]
fn a_long_line_comes_before_a_zero_byte_and_both_before_all_else() {
    for start in [
        "60 ",
        "#",
        "@x ",
        "=",
        "* * * * * ",
        "1 1",
        " ",
        "@daily -",
        "@daily u:",
        "@daily u a",
    ] {
        let mut line = start.as_bytes().to_vec();
        let zero_at = line.len() as u64 + 1;
        line.push(0);
        refused_in_both(&line, [3, 1, zero_at]);
        line.resize(1_000, b' ');
        refused_in_both(&line, [3, 1, zero_at]);
        line.push(b' ');
        refused_in_both(&line, [2, 1, 1_001]);
        line.insert(0, b'\n');
        refused_in_both(&line, [2, 2, 1_001]);
    }
}

#[test]
fn a_zero_byte_at_every_place_of_every_kind_of_line() {
    let lines: [&[u8]; 11] = [
        b"# comment",
        b" \t ",
        b"A = \"b\" ",
        b"'a b'=c d",
        b"1,2 3-4 */5 jan 1-7/2 a%b\\%",
        b"@reboot c",
        b"60 60",
        b"@unknown a",
        b"a b",
        b"@hourly u:g/l c%d",
        b"* * * * * a/c:b",
    ];
    for line in lines {
        for at in 0..=line.len() {
            let mut with_zero = line.to_vec();
            with_zero.insert(at, 0);
            let table = [b"a=b\n", &with_zero[..], b"\n\0"].concat();
            refused_in_both(&table, [3, 2, at as u64 + 1]);
            // The first of two.
            let mut with_two = with_zero.clone();
            with_two.push(0);
            refused_in_both(&with_two, [3, 1, at as u64 + 1]);
        }
    }
}

#[test]
fn one_entry_too_many() {
    for kind in Kind::BOTH {
        one_entry_too_many_of(kind);
    }
}

/// `~` is a system table's user.
fn one_entry_too_many_of(kind: Kind) {
    let mut rows: Vec<(&str, Option<[u64; 2]>)> = vec![
        ("", None),
        ("#", None),
        ("A=b", None),
        ("* * * * * ~a", Some([12, 1])),
        ("  \t* * * * * ~a", Some([12, 1])),
        ("@reboot ~a", Some([12, 1])),
        ("@daily ~a", Some([12, 1])),
        ("60 * * * * a", Some([6, 1])),
        (" * * * * 8 a", Some([6, 10])),
        ("* * * * *", Some([9, 10])),
        ("* *", Some([4, 4])),
        ("@reboot", Some([9, 8])),
        (" @x a", Some([10, 2])),
        ("a", Some([11, 1])),
    ];
    if kind == Kind::System {
        rows.push(("* * * * * -u a", Some([20, 11])));
        rows.push(("@reboot u: a", Some([20, 9])));
        rows.push(("@reboot u", Some([9, 10])));
    }
    for entry in [
        "* * * * * ~a\n",
        "@reboot ~a\n",
        "1 1 1 1 1 ~a%\n\n#\nA=b\n",
    ] {
        let entry = of_kind(entry, kind);
        let lines = entry.matches('\n').count() as u64 * ENTRIES as u64;
        let table = entry.repeat(ENTRIES);
        good(kind, table.as_bytes(), ENTRIES as u64);
        for (line, fault) in &rows {
            let line = of_kind(line, kind);
            for end in ["", "\n", "\n60\n", "\n\0"] {
                let table = format!("{table}{line}{end}");
                match *fault {
                    Some([number, column]) => {
                        refused(kind, table.as_bytes(), [number, lines + 1, column]);
                    }
                    None if end == "\n" => good(kind, table.as_bytes(), ENTRIES as u64),
                    None if end.is_empty() && line.is_empty() => {
                        good(kind, table.as_bytes(), ENTRIES as u64);
                    }
                    None if end.is_empty() => {
                        refused(
                            kind,
                            table.as_bytes(),
                            [26, lines + 1, line.len() as u64 + 1],
                        );
                    }
                    None => {
                        let next = lines + 2;
                        let number = if end == "\n60\n" { 6 } else { 3 };
                        refused(kind, table.as_bytes(), [number, next, 1]);
                    }
                }
            }
        }
        // A fault before it.
        let before = format!("60\n{table}{entry}");
        refused(kind, before.as_bytes(), [6, 1, 1]);
    }
    let entry = of_kind("@reboot ~a\n", kind);
    // Fewer are ordinary.
    for fewer in [127, 128, 129, ENTRIES - 1] {
        let table = entry.repeat(fewer) + "A=b\n";
        good(kind, table.as_bytes(), fewer as u64);
    }
    let table = entry.repeat(ENTRIES);
    Compared::under(table.as_bytes(), kind).everything(&mut Random::new(4));
}
