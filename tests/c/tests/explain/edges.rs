//! Files that can't be read or are refused, names, wrong arguments, and a standard output that can't be written.

use super::explained;
use c::{all, complaint, filled, is, told, word, Subcommand};

#[test]
fn what_cannot_be_read_or_is_refused_is_said() {
    let explain = Subcommand::new("explain", "explain-unreadable");
    let missing = "eremothyn explain: missing: No such file or directory\n";
    assert_eq!(all(&explain.run(&["missing"])), is("", missing, 2));
    let folder = word(&explain.folder).to_string();
    let line = format!("eremothyn explain: {folder}: Is a directory\n");
    assert_eq!(all(&explain.run(&[folder])), is("", &line, 2));
    explain.write("bad", "0 24 * * * x\n");
    let output = explain.run(&["bad"]);
    assert_eq!(told(&output), (String::new(), Some(1)));
    assert_eq!(complaint(&output), explain.verdict("bad"));
}

#[test]
fn empty_and_huge_tables_are_explained() {
    let explain = Subcommand::new("explain", "explain-sizes");
    explain.write("empty", "");
    assert_eq!(
        all(&explain.run(&["empty"])),
        is("empty: no entries\n", "", 0)
    );
    let input = explain.run_with(&["-"], b"# nothing\n");
    assert_eq!(all(&input), is("-: no entries\n", "", 0));
    let line = format!("* * * * * {}\n", "x".repeat(84));
    let mut table = line.repeat(511);
    table += &format!("@reboot {}\n", "y".repeat(49_152 - table.len() - 9));
    assert_eq!(table.len(), 49_152);
    assert_eq!(explained(&explain, &[], table.as_bytes()).len(), 512);
    let longest = format!("{} {}\n", "0,2,4-6,8 1,3 2,4 * 0,2", "z".repeat(976));
    let found = explained(&explain, &[], longest.as_bytes());
    assert_eq!(found[0].1[1].len(), 976);
}

#[test]
fn odd_names_are_names() {
    let explain = Subcommand::new("explain", "explain-names");
    for name in ["--help", "-x", "%s %n", "a:3:4", "caf\u{e9}"] {
        explain.write(name, "@reboot x\n");
        let output = explain.run(&["--", name]);
        assert_eq!(all(&output), is("line 1: at boot\n    x\n", "", 0));
        explain.write(name, "");
        let line = format!("{name}: no entries\n");
        assert_eq!(all(&explain.run(&["--", name])), is(&line, "", 0));
    }
    let input = explain.run_with(&["-"], b"@reboot x\n");
    assert_eq!(all(&input), is("line 1: at boot\n    x\n", "", 0));
}

#[test]
fn wrong_arguments_are_said() {
    let explain = Subcommand::new("explain", "explain-misused");
    explain.write("good", "");
    let no_date = |date: &str| {
        format!(
            "'{date}' is no date from 1970-01-01 to 9999-12-31, as 2026-11-15 or 2026-11-15T21:30"
        )
    };
    let rows: [(&[&str], String); 12] = [
        (&[], "no file is named".into()),
        (&["good", "good"], "more than one file is named".into()),
        (&["-q", "good"], "unknown option '-q'".into()),
        (&["good", "--from"], "--from needs a value: DATE".into()),
        (&["good", "--from", "2026"], no_date("2026")),
        (
            &["good", "--from=", "2026-11-15"],
            "more than one file is named".into(),
        ),
        (&["good", "--from="], no_date("")),
        (&["good", "--from=2026-02-29"], no_date("2026-02-29")),
        (&["good", "--from=1969-12-31"], no_date("1969-12-31")),
        (
            &["good", "--from=2026-11-15T24:00"],
            no_date("2026-11-15T24:00"),
        ),
        (
            &["good", "--from=2026-11-15 21:30"],
            no_date("2026-11-15 21:30"),
        ),
        (
            &["good", "--from=2026-11-15T21:30Z"],
            no_date("2026-11-15T21:30Z"),
        ),
    ];
    for (arguments, wrong) in rows {
        let text = format!("eremothyn explain: {wrong}\nSee 'eremothyn explain --help'.\n");
        assert_eq!(
            all(&explain.run(arguments)),
            is("", &text, 2),
            "{arguments:?}"
        );
    }
}

#[test]
fn a_full_or_closed_standard_output_is_an_error() {
    let explain = Subcommand::new("explain", "explain-full");
    explain.write("table", "@reboot x\n");
    let said = |why: &str| {
        is(
            "",
            &format!("eremothyn explain: standard output: {why}\n"),
            2,
        )
    };
    let full = filled(&mut explain.command(&["table"]));
    assert_eq!(all(&full), said("No space left on device"));
    let closed = explain.run_before(&["table"], ">&-");
    assert_eq!(all(&closed), said("Bad file descriptor"));
}
