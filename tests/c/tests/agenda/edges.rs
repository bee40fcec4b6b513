//! What isn't read, what is wrong, and what can't be written.

use crate::{agenda_in, agenda_of};
use c::{all, filled, is, told, word};
use std::time::{Duration, Instant};

const DAY: &str = "2026-11-14";

#[test]
fn what_cannot_be_read_is_said() {
    let agenda = agenda_in("agenda-unreadable");
    for (name, why) in [
        ("missing", "No such file or directory"),
        (word(&agenda.folder), "Is a directory"),
        ("", "No such file or directory"),
    ] {
        let text = format!("eremothyn agenda: {name}: {why}\n");
        assert_eq!(all(&agenda.run(&[name, DAY, DAY])), is("", &text, 2));
    }
}

/// As check tells it, on standard error; nothing else is printed.
#[test]
fn what_is_refused_is_told_as_check_does() {
    let agenda = agenda_in("agenda-refused");
    agenda.write("bad", "A=b\n0 10-9 * * * x\n");
    agenda.write("user", "@daily x\n");
    let as_checked = |options: &[&str], name: &str| {
        let expected = agenda.verdict_by(options, name);
        for more in [&[][..], &["--page"], &["--local"]] {
            let arguments = [options, more, &[name, DAY, DAY]].concat();
            assert_eq!(all(&agenda.run(&arguments)), is("", &expected, 1));
        }
    };
    as_checked(&[], "bad");
    as_checked(&["--system"], "user");
    as_checked(&[], "/dev/zero");
    let wrapping = agenda.run(&["--dialect=wrapping", "bad", DAY, DAY]);
    assert_eq!(wrapping.status.code(), Some(0));
}

/// Wrong arguments are said before the file is read.
#[test]
fn wrong_arguments() {
    let agenda = agenda_in("agenda-arguments");
    let needed = "a file and two dates are needed: FILE FROM TO";
    let no_date = |text: &str| {
        format!(
            "'{text}' is no date from 1970-01-01 to 9999-12-31, as 2026-11-15 or 2026-11-15T21:30"
        )
    };
    let mut rows: Vec<(Vec<&str>, String)> = vec![
        (vec![], needed.into()),
        (vec!["a"], needed.into()),
        (vec!["a", DAY], needed.into()),
        (vec!["a", DAY, DAY, DAY], needed.into()),
        (vec!["a", "-x", DAY], "unknown option '-x'".into()),
        (
            vec!["a", "--page=2", DAY, DAY],
            "unknown option '--page=2'".into(),
        ),
        (
            vec!["a", DAY, "2026-11-13"],
            "TO is before FROM: 2026-11-13 is before 2026-11-14".into(),
        ),
        (
            vec!["a", "2026-11-14T00:01", "2026-11-14T00:00"],
            "TO is before FROM: 2026-11-14T00:00 is before 2026-11-14T00:01".into(),
        ),
        (
            vec!["a", "2026-11-15", "2026-11-14T23:59"],
            "TO is before FROM: 2026-11-14T23:59 is before 2026-11-15".into(),
        ),
    ];
    for text in [
        "",
        "x",
        "2026",
        "2026-02-30",
        "2100-02-29",
        "1969-12-31",
        "10000-01-01",
        "2026-13-01",
        "2026-00-01",
        "2026-1-1",
        "2026-11-15T24:00",
        "2026-11-15T21:60",
        "2026-11-15T21",
        "2026-11-15 21:30",
        "2026-11-15T21:30Z",
        " 2026-11-15",
        "2026-11-15T",
        "20261115",
        "0000-01-01",
    ] {
        rows.push((vec!["a", text, DAY], no_date(text)));
        rows.push((vec!["a", DAY, text], no_date(text)));
    }
    for (arguments, wrong) in rows {
        let text = format!("eremothyn agenda: {wrong}\nSee 'eremothyn agenda --help'.\n");
        assert_eq!(
            all(&agenda.run(&arguments)),
            is("", &text, 2),
            "{arguments:?}"
        );
    }
    let help = told(&agenda.run(&["--help"])).0;
    for option in [
        "--local  ",
        "--page  ",
        "-s, --system  ",
        "--dialect NAME  ",
    ] {
        assert!(help.contains(&format!("\n  {option}")), "{help}");
    }
}

#[test]
fn a_dash_is_standard_input() {
    let agenda = agenda_in("agenda-input");
    agenda.write("-", "@");
    let text = agenda_of(&agenda, &["-", DAY, DAY], b"@daily x\n");
    assert!(text.ends_with("14 Sat  00:00  x\n"), "{text}");
    agenda.write("-", "@daily y\n");
    let text = agenda_of(&agenda, &["./-", DAY, DAY], b"@daily x\n");
    assert!(text.ends_with("14 Sat  00:00  y\n"), "{text}");
}

/// It is an error, said once, and a long agenda ends with it.
#[test]
fn standard_output_that_cannot_be_written() {
    let agenda = agenda_in("agenda-full");
    agenda.write("table", "0 0,6,12,18 * * * a\n".repeat(8));
    let said = |why: &str| {
        is(
            "",
            &format!("eremothyn agenda: standard output: {why}\n"),
            2,
        )
    };
    for arguments in [["table", DAY, DAY], ["table", "1970-01-01", "9999-12-31"]] {
        let start = Instant::now();
        let full = filled(&mut agenda.command(&arguments));
        assert_eq!(all(&full), said("No space left on device"));
        let closed = agenda.run_before(&arguments, ">&-");
        assert_eq!(all(&closed), said("Bad file descriptor"));
        let cut = agenda.run_before(&arguments, "| head -n 1 > /dev/null");
        assert_eq!(all(&cut), is("", "", 0));
        assert!(start.elapsed() < Duration::from_secs(10), "{arguments:?}");
    }
}

/// The whole calendar, the most entries, the most bytes.
#[test]
fn huge() {
    let agenda = agenda_in("agenda-huge");
    let start = Instant::now();
    let rare =
        b"0 0 29 2 * leap\n0 12 1 1 * year\n0 0 30 2 * never\n* * * * * often\n0 0 31 12 * last\n";
    let text = agenda_of(&agenda, &["-", "1970-01-01", "9999-12-31"], rare);
    assert!(text.contains("\nevery minute, 4223371680 times:\n    often\n"));
    // 8,030 years, of which 1,947 are leap years.
    assert_eq!(
        text.lines()
            .filter(|line| line.contains("  00:00  leap"))
            .count(),
        1_947
    );
    assert_eq!(
        text.lines()
            .filter(|line| line.contains("  12:00  year"))
            .count(),
        8_030
    );
    assert!(
        text.contains("\nDays without any are left out: 2914890 of 2932897.\n"),
        "{}",
        &text[text.len() - 200..]
    );
    let entries: String = (0..512)
        .map(|entry| format!("*/2 * {} * {} b{:080}\n", 1 + entry % 28, entry % 7, entry))
        .collect();
    let table = entries.clone() + &"#\n".repeat((49_152 - entries.len()) / 2);
    let table = format!("{table}{}", "\n".repeat(49_152 - table.len()));
    assert_eq!(table.len(), 49_152);
    let text = agenda_of(
        &agenda,
        &["--page", "-", "1970-01-01", "9999-12-31"],
        table.as_bytes(),
    );
    assert_eq!(text.matches("\n    b0").count(), 512);
    let never: String = (0..512).map(|_| "0 0 30 2 * n\n").collect();
    let text = agenda_of(
        &agenda,
        &["-", "1970-01-01", "9999-12-31"],
        never.as_bytes(),
    );
    assert_eq!(text.matches("never fires           n\n").count(), 512);
    assert!(
        start.elapsed() < Duration::from_secs(30),
        "{:?}",
        start.elapsed()
    );
    let longer = agenda.run_with(&["-", DAY, DAY], (table + "\n").as_bytes());
    assert_eq!(
        (told(&longer).0.as_str(), longer.status.code()),
        ("", Some(1))
    );
}
