//! Where an entry stands: its line, and its command as a part of the table.

use differential::samples::{any_rules, busy_table, numbers, of_kind};
use differential::table::Compared;
use reference::random::Random;
use reference::table::{samples, Rules, ENTRIES, LINE_BYTES};

/// Line and raw command of each entry, under all rules; `~` is a system table's user.
fn shows(text: &str, entries: &[(u64, &str)]) {
    for rules in Rules::ALL {
        let table = of_kind(text, rules);
        let compared = Compared::under(table.as_bytes(), rules);
        assert_eq!(compared.check(), Ok(entries.len() as u64));
        for (entry, &(line, command)) in (0..).zip(entries) {
            let place = compared.place(entry).expect("an entry");
            let bytes = place.command.of(table.as_bytes());
            assert_eq!((place.line, bytes), (line, command.as_bytes()), "{table:?}");
        }
        for entry in [entries.len() as u64, 1 << 32, u64::MAX] {
            assert_eq!(compared.place(entry), Err(13));
        }
    }
}

#[test]
fn known_places() {
    shows("", &[]);
    shows("# a\nA=b\n\n", &[]);
    shows("@daily ~a\n", &[(1, "a")]);
    shows("* * * * * ~a\n@reboot ~b\n", &[(1, "a"), (2, "b")]);
    shows(
        "# c\n\nA=b\n \t@daily \t ~a b \t\nCRON_TZ=+01:00\n#\n0 0 * * *\t~c%d\\%e%\n\n",
        &[(4, "a b \t"), (7, "c%d\\%e%")],
    );
    shows(
        "@daily ~@daily x\n@daily ~% %\n@daily ~#\n",
        &[(1, "@daily x"), (2, "% %"), (3, "#")],
    );
    shows(
        "@daily ~A=b\n@daily ~é \u{a0}\n",
        &[(1, "A=b"), (2, "é \u{a0}")],
    );
}

/// A command as long as a line lets it be, on the last line that a full table has.
#[test]
fn long_commands_and_late_lines() {
    for rules in Rules::ALL {
        let start = of_kind("@daily ~", rules);
        let command = "x".repeat(LINE_BYTES - start.len());
        shows(
            &format!("\n\n@daily ~{}\n", "x".repeat(900)),
            &[(3, &"x".repeat(900))],
        );
        let table = format!("{}{start}{command}\n", "\n".repeat(40_000));
        let compared = Compared::under(table.as_bytes(), rules);
        let place = compared.place(0).expect("an entry");
        assert_eq!(place.line, 40_001);
        assert_eq!(place.command.length, command.len());
        assert_eq!(place.command.offset, 40_000 + start.len());
    }
}

#[test]
fn random_tables() {
    let mut random = Random::seeded();
    for round in 0..1_500 {
        let rules = any_rules(&mut random);
        let lines = random.below(12);
        let table = match round % 100 {
            0 => busy_table(&mut random, rules, ENTRIES as u64),
            _ => samples::table(&mut random, rules, lines),
        };
        let compared = Compared::under(&table, numbers(&mut random, rules));
        let mut last = 0;
        for entry in 0..compared.check().unwrap_or(2) {
            let Ok(place) = compared.place(entry) else {
                continue;
            };
            assert!(place.line > last);
            last = place.line;
            // The command ends with its line, which is the one that is told.
            let end = place.command.offset + place.command.length;
            assert_eq!(table.get(end), Some(&b'\n'));
            let newlines = table[..end].iter().filter(|&&byte| byte == b'\n').count();
            assert_eq!(newlines as u64 + 1, place.line);
        }
    }
}

/// A bad table comes first.
#[test]
fn bad_tables() {
    let mut random = Random::seeded();
    for _ in 0..1_000 {
        let rules = any_rules(&mut random);
        let good = samples::table(&mut random, rules, 2);
        let (line, _, _) = samples::bad_line(&mut random, rules);
        let table = [&good[..], &line, b"\n"].concat();
        let compared = Compared::under(&table, rules);
        let Some([number, _, _]) = compared.fault() else {
            panic!("{} is good", table.escape_ascii());
        };
        for any in [0, 1, u64::MAX] {
            assert_eq!(compared.place(any), Err(number));
            assert_eq!(compared.next_setting(any), Err(number));
        }
    }
}
