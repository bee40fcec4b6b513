//! Commands split into shell line and input, and the two buffers.

use differential::samples::of_kind;
use differential::table::Compared;
use eremothyn::Table;
use reference::random::Random;
use reference::table::{Kind, ENTRIES};

/// Every text of one to so many of these bytes.
fn texts(bytes: &[u8], most: u32) -> impl Iterator<Item = Vec<u8>> + '_ {
    let count = bytes.len();
    (1..=most).flat_map(move |length| {
        (0..count.pow(length)).map(move |mut number| {
            let mut next = || {
                let byte = bytes[number % count];
                number /= count;
                byte
            };
            (0..length).map(|_| next()).collect()
        })
    })
}

#[test]
fn percent_and_backslash_in_every_combination() {
    for text in texts(b"%\\ab ", 6) {
        for (start, kind) in [("@daily x", 0), ("@daily u:g x", 1)] {
            let line = [start.as_bytes(), &text, b"\n"].concat();
            let table = Compared::under(&line, kind);
            let _ = table.stdin_length(0);
            table.split_into_all(0);
        }
    }
}

#[test]
fn commands_that_are_percent_and_backslash_alone() {
    for text in texts(b"%\\", 10) {
        for (start, kind) in [
            ("* * * * * ", 0),
            ("@reboot\t", 0),
            (" 1 1 1 1 1\t ", 0),
            ("@reboot\tu/l\t ", 1),
        ] {
            let table = [start.as_bytes(), &text, b"\n\\%%"].concat();
            // What follows is a line of its own, and no good one.
            assert_eq!(Compared::under(&table, kind).fault(), Some([11, 2, 1]));
            let table = &table[..table.len() - 3];
            let compared = Compared::under(table, kind);
            let _ = compared.stdin_length(0);
            compared.split_into_all(0);
        }
    }
}

/// The shell line and the input of a table's first entry.
fn split(table: &str, kind: Kind) -> [Vec<u8>; 2] {
    let [mut shell, mut input] = [(); 2].map(|_| vec![b'~'; table.len()]);
    let table = Table::of(table.as_bytes()).under(kind);
    let length = table.split_command(0, &mut shell[..], &mut input[..]);
    let lengths = [length, table.stdin_length(0).map(Option::unwrap_or_default)];
    for (buffer, length) in [&mut shell, &mut input].into_iter().zip(lengths) {
        let behind = buffer.split_off(length.expect("a good table") as usize);
        assert!(behind.iter().all(|&byte| byte == b'~'), "{behind:?}");
    }
    [shell, input]
}

#[test]
fn known_commands() {
    let rows: [(&str, &str, Option<&str>); 12] = [
        (r"a\%b%c%%d%", "a%b", Some("c\n\nd\n")),
        (
            "mailx john%Happy Birthday!%Time for lunch.",
            "mailx john",
            Some("Happy Birthday!\nTime for lunch."),
        ),
        ("a  ", "a  ", None),
        ("a\u{a0}", "a\u{a0}", None),
        ("a \t% b ", "a \t", Some(" b ")),
        ("a%", "a", Some("")),
        ("%", "", Some("")),
        (r"\%", "%", None),
        (r"\\%", r"\\", Some("")),
        (r"\\\%", r"\\%", None),
        (r"a\", r"a\", None),
        (r"a%\%\", "a", Some(r"%\")),
    ];
    for (command, shell, input) in rows {
        for kind in Kind::BOTH {
            let line = of_kind(&format!("* * * * * ~{command}\n"), kind);
            let table = Compared::under(line.as_bytes(), kind);
            let length = input.map(|input| input.len() as u64);
            assert_eq!(table.stdin_length(0), Ok(length), "{line}");
            let lengths = [shell.len(), input.unwrap_or_default().len()];
            let answer = table.split_command(0, lengths);
            assert_eq!(answer, Ok(shell.len() as u64), "{line}");
            table.split_into_all(0);

            let texts = [shell, input.unwrap_or_default()].map(str::as_bytes);
            assert_eq!(split(&line, kind), texts, "{line}");
        }
    }
}

#[test]
fn no_input_needs_no_room_and_empty_input_neither() {
    for (line, length) in [("@daily a\n", None), ("@daily a%\n", Some(0))] {
        let table = Compared::of(line.as_bytes());
        assert_eq!(table.stdin_length(0), Ok(length));
        assert_eq!(table.split_command(0, [1, 0]), Ok(1));
        assert_eq!(table.split_command(0, [0, 0]), Err(18));
    }
    let table = Compared::of(b"@daily %a\n");
    assert_eq!(table.split_command(0, [0, 1]), Ok(0));
    assert_eq!(table.split_command(0, [9, 0]), Err(18));
}

#[test]
fn too_short_comes_last() {
    let table = Compared::of(b"@daily abc%def\n");
    assert_eq!(table.split_command(1, [0, 0]), Err(13));
    assert_eq!(table.split_command(0, [2, 3]), Err(18));
    assert_eq!(table.split_command(0, [3, 2]), Err(18));
    assert_eq!(table.split_command(0, [2, 2]), Err(18));
    assert_eq!(table.split_command(0, [3, 3]), Ok(3));
}

#[test]
fn a_command_starts_after_the_blanks_and_keeps_its_own() {
    for (start, kind) in [
        ("* * * * *", 0),
        ("@daily", 0),
        ("\t 1\t\t2  3 4 sun", 0),
        ("* * * * * u", 1),
        ("@daily\tu:g/l", 1),
    ] {
        for blanks in [" ", "\t", "   \t "] {
            for command in [
                "a",
                "a b",
                "a \t ",
                "# a",
                "@daily b",
                "* * * * * c",
                "%",
                "=\"",
            ] {
                let line = format!("{start}{blanks}{command}\n");
                let table = Compared::under(line.as_bytes(), kind);
                let shell = command.find('%').unwrap_or(command.len());
                assert_eq!(
                    table.split_command(0, [shell, 0]),
                    Ok(shell as u64),
                    "{line}"
                );
            }
        }
    }
}

#[test]
fn the_command_of_each_entry_is_its_own() {
    let mut random = Random::seeded();
    for kind in Kind::BOTH.repeat(25) {
        let mut table = Vec::new();
        for entry in 0..ENTRIES {
            let ignored: [&[u8]; 4] = [b"", b"\n", b"#%\n", b"a=%\\%\n"];
            table.extend(random.pick(&ignored));
            let line = format!("@hourly ~{}%{entry}\n", "c".repeat(entry % 50));
            table.extend(of_kind(&line, kind).bytes());
        }
        let compared = Compared::under(&table, kind);
        assert_eq!(compared.check(), Ok(ENTRIES as u64));
        for entry in 0..ENTRIES as u64 {
            let shell = entry % 50;
            let digits = entry.to_string().len();
            let answer = compared.split_command(entry, [shell as usize, digits]);
            assert_eq!(answer, Ok(shell));
            assert_eq!(compared.stdin_length(entry), Ok(Some(digits as u64)));
        }
        assert_eq!(compared.stdin_length(ENTRIES as u64), Err(13));
    }
}
