//! `eremothyn next`: the next firings of a table, against the reference program, and what it says where there are none.

use c::shown::{clock, firings, job, minute_text, reading, typed};
use c::{all, complaint, filled, is, told, word, Subcommand};
use reference::calendar::{minute_of, LAST_MINUTE};
use reference::random::Random;
use reference::schedule::samples::start;
use reference::table::{read, samples, Rules, Table};
use std::time::{Duration, Instant, SystemTime, UNIX_EPOCH};

fn next_in(folder: &str) -> Subcommand {
    Subcommand::new("next", folder)
}

/// The lines that the reference program wants.
fn wanted(table: &Table, from: u64, count: usize, is_local: bool) -> Vec<String> {
    let mut list: Vec<(u64, usize)> = Vec::new();
    for (number, entry) in table.entries.iter().enumerate() {
        let minutes = firings(entry, [from, LAST_MINUTE]).take(count);
        list.extend(minutes.map(|minute| (minute, number)));
    }
    list.sort();
    list.truncate(count);
    let last = table.places.last().map_or(0, |place| place.line);
    let width = last.to_string().len();
    let line = |&(minute, number): &(u64, usize)| {
        let place = table.places[number].line;
        let clock = match is_local {
            true => clock(table, number, minute),
            false => String::new(),
        };
        let blank = if clock.is_empty() { "" } else { " " };
        let job = job(table, &table.entries[number]);
        format!(
            "{}  line {place:width$}  {clock}{blank}{job}",
            minute_text(minute)
        )
    };
    list.iter().map(line).collect()
}

/// What is printed of a table that is taken, which is UTF-8 whatever the table is, and what is said.
fn printed(next: &Subcommand, arguments: &[&str], table: &[u8]) -> (Vec<String>, String) {
    let output = next.run_with(arguments, table);
    assert_eq!(output.status.code(), Some(0), "{arguments:?} {output:?}");
    let said = complaint(&output);
    let text = String::from_utf8(output.stdout).expect("UTF-8");
    (text.lines().map(str::to_string).collect(), said)
}

#[test]
fn random_tables_of_both_kinds_and_dialects() {
    let next = next_in("next-random");
    let mut random = Random::seeded();
    let (mut lines, mut none) = (0, 0);
    for rules in Rules::ALL.repeat(150) {
        let count = random.below(14);
        let table = samples::table(&mut random, rules, count);
        let from = match random.below(8) {
            0 => random.below(900),
            1 => LAST_MINUTE - random.below(900),
            _ => start(&mut random).min(LAST_MINUTE),
        };
        let count = random.pick(&[1, 2, 10, 10, 300, 3_000]);
        let is_local = random.below(2) == 0;
        let (date, number) = (typed(from), count.to_string());
        let more: &[&str] = if is_local { &["--local"] } else { &[] };
        let arguments = [&reading(rules)[..], more, &["-", "--from", &date, &number]].concat();
        let (found, said) = printed(&next, &arguments, &table);
        let parts = read(&table, rules).expect("a good table");
        let expected = wanted(&parts, from, count, is_local);
        assert!(
            found == expected,
            "{arguments:?} {}\n{found:#?}\nnot\n{expected:#?}",
            table.escape_ascii()
        );
        assert_eq!(said.is_empty(), !expected.is_empty(), "{said}");
        lines += found.len();
        none += usize::from(found.is_empty());
    }
    assert!(lines > 10_000 && none > 5, "{lines} lines, {none} without");
}

/// A line by hand, with its columns.
#[test]
fn lines_by_hand() {
    let next = next_in("next-worked");
    let table = "30 21 1,15 * *  gate fetch\tcertificates%winter\nA=b\nCRON_TZ=+12:45\n\n\n\n\n\n\n0 7 * * mon mirror wash\n";
    next.write("table", table);
    let run = |arguments: &[&str]| all(&next.run(arguments));
    let text = "2026-11-15 Sun 18:15  line 10  mirror wash\n2026-11-15 Sun 21:30  line  1  gate fetch certificates\n";
    assert_eq!(
        run(&["table", "2", "--from", "2026-11-15T18:15"]),
        is(text, "", 0)
    );
    let local = text.replace("10  mirror", "10  [Mon 07:00 +12:45] mirror");
    assert_eq!(
        run(&["--local", "table", "--from=2026-11-15", "2"]),
        is(&local, "", 0)
    );
    // A firing in the minute itself counts, and one before it doesn't.
    let later = "2026-11-15 Sun 21:30  line  1  gate fetch certificates\n";
    assert_eq!(
        run(&["table", "1", "--from", "2026-11-15T21:30"]),
        is(later, "", 0)
    );
    assert_eq!(
        run(&["table", "1", "--from", "2026-11-15T18:16"]),
        is(later, "", 0)
    );
    // Ten, where no number is given.
    assert_eq!(
        run(&["table", "--from", "2026-11-15"]).0.lines().count(),
        10
    );
    // Long lines stay whole.
    let long = format!("@daily {}\n", "word ".repeat(190));
    let (lines, _) = printed(&next, &["-", "1", "--from", "2026-11-15"], long.as_bytes());
    assert_eq!(lines[0].len(), 30 + 950);
}

/// The minute that the clock shows has begun.
#[test]
fn from_now() {
    let next = next_in("next-now");
    let now = || {
        let since = SystemTime::now().duration_since(UNIX_EPOCH);
        since.expect("a clock after 1970").as_secs() / 60
    };
    let first = |minute: u64| format!("{}  line 1  a", minute_text(minute));
    let before = now();
    let (lines, _) = printed(&next, &["-", "3"], b"* * * * * a\n");
    let after = now();
    let expected: Vec<String> = (before..=after).map(|now| first(now + 1)).collect();
    assert!(expected.contains(&lines[0]), "{lines:?} {expected:?}");
    assert_eq!(lines.len(), 3);
}

/// Nothing is printed then, and it is no failure.
#[test]
fn where_nothing_fires() {
    let next = next_in("next-none");
    let rows: [(&str, &str, &str); 5] = [
        ("", "2026-11-15", "no entries"),
        ("# c\nA=b\n", "2026-11-15", "no entries"),
        (
            "@reboot a\n@reboot b\n",
            "2026-11-15",
            "all entries fire at boot only",
        ),
        (
            "@reboot a\n0 0 30 2 * b\n",
            "2026-11-15",
            "nothing fires from 2026-11-15 Sun 00:00 on",
        ),
        (
            "@daily a\n",
            "9999-12-31T00:01",
            "nothing fires from 9999-12-31 Fri 00:01 on",
        ),
    ];
    for (table, from, why) in rows {
        let output = next.run_with(&["-", "--from", from], table.as_bytes());
        assert_eq!(
            all(&output),
            is("", &format!("eremothyn next: -: {why}\n"), 0)
        );
    }
    // Fewer than are wanted are all that there are.
    let (lines, said) = printed(&next, &["-", "5", "--from", "9999-12-30"], b"@daily a\n");
    assert_eq!(
        lines,
        [
            "9999-12-30 Thu 00:00  line 1  a",
            "9999-12-31 Fri 00:00  line 1  a"
        ]
    );
    assert_eq!(said, "");
}

/// The first minute and the last, by clocks that are off the calendar then.
#[test]
fn the_ends_of_the_calendar() {
    let next = next_in("next-ends");
    for zone in ["+00:00", "+14:00", "-12:00"] {
        let table =
            format!("* * * * * a\nCRON_TZ={zone}\n* * * * * b\n0 0 1 1 * c\n59 23 31 12 * d\n");
        let parts = read(table.as_bytes(), Rules::ALL[0]).expect("a good table");
        for from in [
            0,
            1,
            700,
            720,
            839,
            LAST_MINUTE - 841,
            LAST_MINUTE - 720,
            LAST_MINUTE - 1,
            LAST_MINUTE,
        ] {
            let arguments = ["-", "2000", "--local", "--from", &typed(from)];
            let (lines, _) = printed(&next, &arguments, table.as_bytes());
            assert!(lines == wanted(&parts, from, 2_000, true), "{zone} {from}");
            assert!(!lines.is_empty());
        }
    }
}

/// The most firings of the most entries, from calls that each list some of them. All entries fire at the same minutes.
#[test]
fn huge() {
    let next = next_in("next-huge");
    let from = minute_of(2026, 11, 15, 0, 0).expect("a date");
    for entry in ["* * * * * a\n", "0 0 29 2 * a\n", "*/7 3 * * 1 a\n"] {
        let table = entry.repeat(512) + &"#\n".repeat(100);
        let parts = read(table.as_bytes(), Rules::ALL[0]).expect("a good table");
        let minutes = firings(&parts.entries[0], [from, LAST_MINUTE]);
        let line = |minute: u64, line: u64| format!("{}  line {line:3}  a", minute_text(minute));
        let lines = minutes.flat_map(|minute| (1..=512).map(move |number| line(minute, number)));
        let all: Vec<String> = lines.take(100_000).collect();
        for count in [1, 511, 512, 513, 2_048, 99_999, 100_000] {
            let arguments = ["-", &count.to_string(), "--from", &typed(from)];
            let start = Instant::now();
            let (lines, _) = printed(&next, &arguments, table.as_bytes());
            assert!(
                start.elapsed() < Duration::from_secs(10),
                "{:?}",
                start.elapsed()
            );
            assert!(lines == all[..count], "{entry} {count}");
        }
    }
}

#[test]
fn what_cannot_be_read_or_is_refused() {
    let next = next_in("next-unreadable");
    for (name, why) in [
        ("missing", "No such file or directory"),
        (word(&next.folder), "Is a directory"),
        ("", "No such file or directory"),
    ] {
        let text = format!("eremothyn next: {name}: {why}\n");
        assert_eq!(all(&next.run(&[name])), is("", &text, 2));
    }
    next.write("bad", "A=b\n0 10-9 * * * x\n");
    let verdict = next.verdict("bad");
    assert_eq!(all(&next.run(&["bad", "3"])), is("", &verdict, 1));
    assert_eq!(
        next.run(&["bad", "--dialect", "wrapping"]).status.code(),
        Some(0)
    );
    let user = next.run_with(&["-s", "-"], b"@daily x\n");
    assert_eq!(told(&user), (String::new(), Some(1)));
    for name in ["--from", "%s %n", "l\nine", "10"] {
        next.write(name, "@daily x\n");
        let output = next.run(&["--from", "2026-11-15", "--", name, "1"]);
        assert_eq!(all(&output), is("2026-11-15 Sun 00:00  line 1  x\n", "", 0));
    }
}

/// Wrong arguments are said before the file is read.
#[test]
fn wrong_arguments() {
    let next = next_in("next-arguments");
    let mut rows: Vec<(Vec<&str>, String)> = vec![
        (vec![], "no file is named".into()),
        (
            vec!["a", "1", "2"],
            "more than a file and a number are given".into(),
        ),
        (vec!["a", "--from"], "--from needs a value: DATE".into()),
        (vec!["a", "--page"], "unknown option '--page'".into()),
        (vec!["a", "-1"], "unknown option '-1'".into()),
    ];
    for count in [
        "0",
        "100001",
        "",
        "x",
        "1x",
        "+1",
        " 1",
        "1.5",
        "18446744073709551617",
        "000",
    ] {
        rows.push((
            vec!["a", count],
            format!("'{count}' is no number of firings from 1 to 100000"),
        ));
    }
    for date in ["", "now", "2026-02-30", "1969-12-31", "2026-11-15T24:00"] {
        let wrong = format!(
            "'{date}' is no date from 1970-01-01 to 9999-12-31, as 2026-11-15 or 2026-11-15T21:30"
        );
        rows.push((vec!["a", "--from", date], wrong));
    }
    for (arguments, wrong) in rows {
        let text = format!("eremothyn next: {wrong}\nSee 'eremothyn next --help'.\n");
        assert_eq!(
            all(&next.run(&arguments)),
            is("", &text, 2),
            "{arguments:?}"
        );
    }
    next.write("a", "@daily x\n");
    assert_eq!(told(&next.run(&["a", "0003"])).0.lines().count(), 3);
    let help = told(&next.run(&["--help"])).0;
    for option in [
        "--from DATE  ",
        "--local  ",
        "-s, --system  ",
        "--dialect NAME  ",
    ] {
        assert!(help.contains(&format!("\n  {option}")), "{help}");
    }
}

/// It is an error, said once.
#[test]
fn standard_output_that_cannot_be_written() {
    let next = next_in("next-full");
    next.write("table", "* * * * * a\n");
    let said = |why: &str| is("", &format!("eremothyn next: standard output: {why}\n"), 2);
    for arguments in [["table", "1"], ["table", "100000"]] {
        let full = filled(&mut next.command(&arguments));
        assert_eq!(all(&full), said("No space left on device"));
        let closed = next.run_before(&arguments, ">&-");
        assert_eq!(all(&closed), said("Bad file descriptor"));
        let cut = next.run_before(&arguments, "| head -n 1 > /dev/null");
        assert_eq!(all(&cut), is("", "", 0));
    }
}
