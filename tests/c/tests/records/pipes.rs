//! Both over a real pipe: `eremothyn compile table | eremothyn decompile -` is `eremothyn format table`.

use c::{all, is, root, word, Subcommand};
use reference::random::Random;
use reference::table::normal::samples;
use reference::table::records::known::{TABLE, TEXT};
use reference::table::{documents, ENTRIES, TABLE_BYTES};
use std::fs;
use std::process::{Command, Output};

/// Runs a script in which `eremothyn` is the command, and `table` a file.
fn script(command: &Subcommand, script: &str) -> Output {
    let define = format!("eremothyn() {{ '{}' \"$@\"; }}", word(&command.program));
    Command::new("sh")
        .current_dir(&command.folder)
        .args(["-c", &format!("{define}; {script}")])
        .output()
        .expect("the shell runs")
}

/// There and back is the normal text, which goes there and back as itself.
fn goes_through(command: &Subcommand, table: &[u8]) -> String {
    command.write("table", table);
    let there = script(command, "eremothyn compile table | eremothyn decompile -");
    let format = script(command, "eremothyn format table");
    assert_eq!(there.stdout, format.stdout, "{}", table.escape_ascii());
    assert_eq!(all(&there), all(&format), "{}", table.escape_ascii());
    assert_eq!(there.status.code(), Some(0));
    let again = "eremothyn compile < table | eremothyn decompile | eremothyn compile > again";
    let same = "eremothyn compile table | cmp - again";
    let output = script(command, &format!("{again}; {same}"));
    assert_eq!(all(&output), is("", "", 0), "{}", table.escape_ascii());
    String::from_utf8_lossy(&there.stdout).into_owned()
}

#[test]
fn the_examples_go_through() {
    let command = Subcommand::new("compile", "pipe-examples");
    assert_eq!(goes_through(&command, TABLE.as_bytes()), TEXT);
    for name in ["observatory.crontab", "system.crontab"] {
        let table = fs::read(root().join("examples").join(name)).expect("an example");
        let text = goes_through(&command, &table);
        assert!(text.starts_with("SHELL=/bin/sh\n"), "{text}");
    }
}

#[test]
fn documents_and_full_tables_go_through() {
    let command = Subcommand::new("compile", "pipe-documents");
    let lines = documents::ENTRIES
        .iter()
        .map(|(line, _)| format!("{line}\n"));
    let is_good = |line: &String| reference::table::records::compiled(line.as_bytes()).is_ok();
    let good: String = lines.filter(is_good).collect();
    assert!(goes_through(&command, good.as_bytes()).len() > 100);
    assert_eq!(goes_through(&command, b""), "");
    let entries = "* * * * * a\n".repeat(ENTRIES);
    assert_eq!(goes_through(&command, entries.as_bytes()), entries);
    let settings = "A=\n".repeat(TABLE_BYTES / 3);
    assert_eq!(goes_through(&command, settings.as_bytes()), settings);
}

#[test]
fn random_tables_go_through() {
    let command = Subcommand::new("compile", "pipe-random");
    let mut random = Random::seeded();
    for lines in 0..60 {
        let table = samples::table(&mut random, lines % 20);
        let _ = goes_through(&command, &table);
    }
    let table = samples::table_written_in(&mut random, TABLE_BYTES);
    let _ = goes_through(&command, &table);
}

/// A refused table sends nothing, and a link that fails in the midst of the last record is told.
#[test]
fn a_cut_line_is_told() {
    let command = Subcommand::new("compile", "pipe-cut");
    command.write("table", TABLE);
    let cut = "eremothyn compile table | head -c 50 | eremothyn decompile -";
    let (text, complaint, status) = all(&script(&command, cut));
    assert!(
        complaint.starts_with("-: record 3: refused 22: "),
        "{complaint}"
    );
    assert_eq!((text.as_str(), status), ("", Some(1)));
    command.write("table", "@noon");
    let refused = "eremothyn compile table | wc -c";
    assert_eq!(script(&command, refused).stdout, b"0\n");
}
