//! `eremothyn compile`.

use c::{all, complaint, is, Subcommand};
use reference::random::Random;
use reference::table::normal::samples;
use reference::table::records::compiled;
use reference::table::records::known::{hex, RECORDS, TABLE, TEXT};
use reference::table::{LINE_BYTES, TABLE_BYTES};
use std::fs::File;
use std::process::{Output, Stdio};

fn compile_in(folder: &str) -> Subcommand {
    Subcommand::new("compile", folder)
}

#[test]
fn the_records_are_written() {
    let compile = compile_in("compile-records");
    for table in [TABLE, TEXT] {
        compile.write("table", table);
        let ways: [&[&str]; 5] = [&["table"], &[], &["-"], &["--", "-"], &["-f"]];
        for way in ways {
            let output = compile.run_with(way, table.as_bytes());
            assert_eq!(output.stdout, hex(RECORDS), "{way:?}");
            assert_eq!(
                (complaint(&output).as_str(), output.status.code()),
                ("", Some(0))
            );
        }
    }
    for nothing in ["", "# a\n"] {
        let output = compile.run_with::<&str>(&[], nothing.as_bytes());
        assert_eq!(all(&output), is("", "", 0));
    }
}

/// A refused table is told as `eremothyn check` tells it, but on standard error.
#[test]
fn a_refused_table_is_told_as_check_tells_it() {
    let compile = compile_in("compile-refused");
    for table in [
        "\0",
        "5 5",
        "@noon x",
        "\tname",
        "CRON_TZ=x",
        "a=b\n0 0 * * *",
        "a=b",
        "a=b\r\n",
    ] {
        compile.write("table", table);
        let verdict = compile.verdict("table");
        assert_eq!(all(&compile.run(&["table"])), is("", &verdict, 1));
    }
    let endless = all(&compile.run(&["/dev/zero"]));
    assert!(
        endless
            .1
            .starts_with("/dev/zero:0:0: error: the table has more than 49152 bytes [1]\n"),
        "{endless:?}"
    );
}

/// The place of 21 is the line whose text would be too long, or the whole text.
#[test]
fn a_text_that_is_too_long_is_refused_at_its_line() {
    let compile = compile_in("compile-too-long");
    let long = format!("@daily {}\n", "x".repeat(LINE_BYTES - 9));
    compile.write("line", format!("# one\nA = b\n{long}{long}"));
    let mut random = Random::seeded();
    compile.write(
        "whole",
        samples::table_written_in(&mut random, TABLE_BYTES + 1),
    );
    for (name, place) in [("line", "3:1"), ("whole", "0:0")] {
        let (text, complaint, status) = all(&compile.run(&[name]));
        let words =
            "in normal form a line has more than 1000 bytes, or the table more than 49152 [21]";
        let start = format!("{name}:{place}: error: {words}\n");
        assert!(complaint.starts_with(&start), "{complaint}");
        assert_eq!((text.as_str(), status), ("", Some(1)));
    }
}

/// Runs with a terminal as standard output.
fn run_at_a_terminal(compile: &Subcommand, arguments: &[&str]) -> Output {
    let terminal = File::options().read(true).write(true).open("/dev/ptmx");
    compile
        .command(arguments)
        .stdout(Stdio::from(terminal.expect("a terminal")))
        .stderr(Stdio::piped())
        .spawn()
        .and_then(|child| child.wait_with_output())
        .expect("the command runs")
}

#[test]
fn records_go_to_a_terminal_by_force_only() {
    let compile = compile_in("compile-terminal");
    compile.write("table", TABLE);
    for name in ["table", "missing"] {
        let output = run_at_a_terminal(&compile, &[name]);
        let wrong = "eremothyn compile: records aren't written to a terminal, unless by -f\n";
        let hint = "See 'eremothyn compile --help'.\n";
        assert_eq!(all(&output), is("", &format!("{wrong}{hint}"), 2));
    }
    for option in ["-f", "--force"] {
        let output = run_at_a_terminal(&compile, &[option, "table"]);
        assert_eq!(all(&output), is("", "", 0));
    }
}

/// As many bytes as records can have.
#[test]
fn the_longest_records() {
    let compile = compile_in("compile-longest");
    compile.write("table", "A=\n".repeat(TABLE_BYTES / 3));
    let output = compile.run(&["table"]);
    assert_eq!(
        output.stdout,
        b"\x05\0\x03\0\x01\0A".repeat(TABLE_BYTES / 3)
    );
    assert_eq!(output.status.code(), Some(0));
}

#[test]
fn it_writes_what_the_second_program_writes() {
    let compile = compile_in("compile-random");
    let mut random = Random::seeded();
    for round in 0..300 {
        let table = samples::table(&mut random, round % 12);
        let output = compile.run_with::<&str>(&[], &table);
        assert_eq!(Ok(output.stdout), compiled(&table));
        assert_eq!(output.status.code(), Some(0));
    }
}
