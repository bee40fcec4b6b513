//! Settings, shown as parts of the table.

use differential::samples::{any_rules, numbers};
use differential::table::Compared;
use reference::random::Random;
use reference::table::{samples, Rules};

/// Name and value of a line, with where they start in the table, which is good in both kinds or bad in both.
fn shown(table: &str, line: u64) -> Result<[(usize, &str); 2], u64> {
    let settings = [0, 1].map(|kind| Compared::under(table.as_bytes(), kind).setting(line));
    assert_eq!(settings[0], settings[1], "{table}");
    let setting = settings[0]?;
    let part = |part: reference::table::Part| {
        (part.offset, &table[part.offset..part.offset + part.length])
    };
    Ok([part(setting.name), part(setting.value)])
}

#[test]
fn known_settings() {
    let rows = [
        ("A=b", (0, "A"), (2, "b")),
        ("A = b", (0, "A"), (4, "b")),
        ("\tA\t=\tb\t", (1, "A"), (5, "b")),
        ("A=", (0, "A"), (2, "")),
        ("A=  ", (0, "A"), (4, "")),
        ("A=\"\"", (0, "A"), (3, "")),
        ("A=''  ", (0, "A"), (3, "")),
        ("A=\" b \"", (0, "A"), (3, " b ")),
        ("A= 'it\"s' ", (0, "A"), (4, "it\"s")),
        ("A=b c  d ", (0, "A"), (2, "b c  d")),
        ("A=b\"c", (0, "A"), (2, "b\"c")),
        ("A=b'", (0, "A"), (2, "b'")),
        ("A=b # no comment", (0, "A"), (2, "b # no comment")),
        ("A==", (0, "A"), (2, "=")),
        ("A= =b", (0, "A"), (3, "=b")),
        ("\"A\"=b", (1, "A"), (4, "b")),
        ("' A b '\t= c", (1, " A b "), (10, "c")),
        ("\"=\"==", (1, "="), (4, "=")),
        ("\"it's\"='\"'", (1, "it's"), (8, "\"")),
        ("'\"'=\"'\"", (1, "\""), (5, "'")),
        ("'#'=#", (1, "#"), (4, "#")),
        ("'5 * * * *'=a", (1, "5 * * * *"), (12, "a")),
        ("-5=*", (0, "-5"), (3, "*")),
        ("A\u{a0}=b\u{a0}", (0, "A\u{a0}"), (4, "b\u{a0}")),
        ("é=ü", (0, "é"), (3, "ü")),
        ("%=\\%", (0, "%"), (2, "\\%")),
    ];
    for (line, name, value) in rows {
        for before in ["", "\n", "#\n@daily a b\n  \nC=d\n"] {
            for end in ["\n", "\n\n", "\nE=f\n", "\n* * * * * g h\n"] {
                let table = format!("{before}{line}{end}");
                let number = before.matches('\n').count() as u64 + 1;
                let later = |(at, text)| (before.len() + at, text);
                let expected = Ok([later(name), later(value)]);
                assert_eq!(shown(&table, number), expected, "{table}");
            }
        }
    }
}

#[test]
fn lines_that_are_no_settings() {
    let table = "A=b\n# C=d\n\n* * * * * e E=f\n@daily g G=h\n \t\nI=j\n";
    let is_setting = |line: u64| shown(table, line).is_ok();
    let found: Vec<u64> = (0..20).filter(|&line| is_setting(line)).collect();
    assert_eq!(found, [1, 7]);
    for line in [
        0,
        2,
        3,
        4,
        5,
        6,
        8,
        1 << 32,
        (1 << 32) + 1,
        (1 << 63) + 7,
        u64::MAX,
    ] {
        assert_eq!(shown(table, line), Err(19), "line {line}");
    }
    // Behind the last newline is no line, and in front of it an empty one.
    assert_eq!(shown("A=b\n", 2), Err(19));
    assert_eq!(shown("\nA=b\n", 1), Err(19));
}

#[test]
fn a_refused_table_has_no_settings() {
    for line in 0..5 {
        assert_eq!(shown("A=b\n60\nC=d", line), Err(6));
        assert_eq!(shown("A=b\nC", line), Err(11));
        assert_eq!(shown("A=b\nC=d", line), Err(26));
        assert_eq!(shown("A=b\r\nC=d\r\n", line), Err(27));
    }
}

/// Every line of up to so many of these bytes, between two others.
#[test]
fn short_lines_of_the_bytes_that_settings_are_made_of() {
    let bytes = b"a=\"' ";
    let mut lines: Vec<Vec<u8>> = vec![Vec::new()];
    for _ in 0..6 {
        let longer = |line: &Vec<u8>| bytes.map(|byte| [&line[..], &[byte]].concat());
        lines = lines.iter().flat_map(longer).collect();
        for line in &lines {
            let table = [b"x=y\n", &line[..], b"\nz='\"'\n"].concat();
            for kind in [0, 1] {
                let compared = Compared::under(&table, kind);
                for number in 1..=3 {
                    let _ = compared.setting(number);
                }
                if let Some(fault) = compared.fault() {
                    let blanks = line.iter().take_while(|&&byte| byte == b' ').count();
                    assert_eq!(fault, [11, 2, blanks as u64 + 1]);
                }
            }
        }
    }
}

#[test]
fn every_line_of_a_long_table() {
    let table: String = (1..=2_000)
        .map(|line| match line % 3 {
            0 => format!("A{line}=\n"),
            _ => "\n".into(),
        })
        .collect();
    for kind in [0, 1] {
        let compared = Compared::under(table.as_bytes(), kind);
        for line in 0..2_003 {
            let expected = line % 3 == 0 && (1..=2_000).contains(&line);
            assert_eq!(compared.setting(line).is_ok(), expected, "line {line}");
            let next = line.max(1).next_multiple_of(3);
            let next = Some(next).filter(|&next| next <= 2_000).ok_or(19);
            assert_eq!(compared.next_setting(line), next, "line {line}");
        }
    }
}

#[test]
fn the_next_setting() {
    let table = "# a\nA=b\n\n* * * * * c d\nE=f\nG='h'\n@daily i j\n";
    for rules in Rules::ALL {
        let compared = Compared::under(table.as_bytes(), rules);
        let rows = [2, 2, 2, 5, 5, 5, 6];
        for (line, next) in (0..).zip(rows) {
            assert_eq!(compared.next_setting(line), Ok(next), "line {line}");
        }
        for line in [7, 8, 9, 1 << 32, (1 << 32) + 2, 1 << 63, u64::MAX] {
            assert_eq!(compared.next_setting(line), Err(19), "line {line}");
        }
        assert_eq!(compared.setting_lines(), [2, 5, 6]);
    }
    for table in ["", "\n", "# a\n", "@daily a b\n"] {
        assert_eq!(Compared::of(table.as_bytes()).next_setting(0), Err(19));
    }
}

/// The loop has the lines that have a setting when each is asked about.
#[test]
fn all_settings_by_a_loop() {
    let mut random = Random::seeded();
    let mut settings = 0;
    for _ in 0..2_000 {
        let rules = any_rules(&mut random);
        let lines = random.below(20);
        let table = samples::table(&mut random, rules, lines);
        let compared = Compared::under(&table, numbers(&mut random, rules));
        let asked = (0..lines + 3).filter(|&line| compared.setting(line).is_ok());
        let asked: Vec<u64> = asked.collect();
        assert_eq!(compared.setting_lines(), asked);
        settings += asked.len();
    }
    assert!(settings > 1_000, "{settings} settings");
}
