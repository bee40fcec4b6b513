//! What is printed without options and by `-l`, and what is said of files that can't be read or are refused.

use super::{all, format_in, is};
use c::{complaint, filled, told, word};
use reference::random::Random;
use reference::table::normal::{normal_text, samples};
use reference::table::{read, Kind, LINE_BYTES, TABLE_BYTES};

const TABLE: &str =
    "# office\nMAILTO = \"duty office\"\n\n@daily  rotate  logs\n0 9-17/4 * * mon-fri\tring\n";
const TEXT: &str = "MAILTO=duty office\n0 0 * * * rotate  logs\n0 9,13,17 * * 1,2,3,4,5 ring\n";

const TOO_LONG: &str =
    "in normal form a line has more than 1000 bytes, or the table more than 49152";

#[test]
fn the_normal_text_is_printed() {
    let format = format_in("format-text");
    for (table, text) in [
        (TABLE, TEXT),
        (TEXT, TEXT),
        ("", ""),
        ("# a\n", ""),
        ("A='b'\n", "A=b\n"),
        ("'CRON_TZ' = \"+05:30\"\n", "CRON_TZ=+05:30\n"),
    ] {
        let path = format.write("table", table);
        assert_eq!(all(&format.run(&[&path])), is(text, "", 0));
        assert_eq!(format.read("table"), table.as_bytes());
    }
    // Bytes of every sort.
    let bytes = b"A\xff=\x80\x9f\n* * * * *\t~\xff% \\%\n";
    format.write("table", bytes);
    let output = format.run(&["table"]);
    assert_eq!(output.stdout, b"A\xff=\x80\x9f\n* * * * * ~\xff% \\%\n");
}

#[test]
fn standard_input_is_read_where_no_file_is_named() {
    let format = format_in("format-input");
    format.write("-", "@");
    let ways: [&[&str]; 4] = [&[], &["-"], &["--"], &["--", "-"]];
    for way in ways {
        let output = format.run_with(way, TABLE.as_bytes());
        assert_eq!(all(&output), is(TEXT, "", 0), "{way:?}");
    }
    let refused = all(&format.run_with::<&str>(&[], b"\n@"));
    assert!(
        refused.1.starts_with("-:2:1: error: '@' is not one of "),
        "{refused:?}"
    );
    assert_eq!((refused.0.as_str(), refused.2), ("", Some(1)));
    // A file of that name has another, too.
    let refused = all(&format.run(&["./-"]));
    assert!(
        refused.1.starts_with("./-:1:1: error: '@' is not one of "),
        "{refused:?}"
    );
}

#[test]
fn several_files_are_printed_one_behind_the_other() {
    let format = format_in("format-several");
    format.write("one", TABLE);
    format.write("two", "A = b\n");
    format.write("bad", "# a\n60 0 * * * x\n");
    let bad = "bad:2:1: error: minute: 60 is outside 0-59 [6]\n    60 0 * * * x\n    ^~\n    \
        hint: a full hour is minute 0\nbad: refused: 1 error\n";
    let missing = "eremothyn format: missing: No such file or directory\n";
    let output = format.run(&["one", "two", "one"]);
    assert_eq!(all(&output), is(&format!("{TEXT}A=b\n{TEXT}"), "", 0));
    let output = format.run(&["bad", "two"]);
    assert_eq!(all(&output), is("A=b\n", bad, 1));
    let output = format.run(&["missing", "bad", "two"]);
    assert_eq!(all(&output), is("A=b\n", &format!("{missing}{bad}"), 2));
    let output = format.run(&["two", "bad", "missing", "two"]);
    assert_eq!(
        all(&output),
        is("A=b\nA=b\n", &format!("{bad}{missing}"), 2)
    );
}

/// A refused table is told as `eremothyn check` tells it, but on standard error.
#[test]
fn a_refused_table_is_told_as_check_tells_it() {
    let format = format_in("format-refused");
    for table in [
        "\0",
        "5 5",
        "@noon x",
        "\tname",
        "*/0 0 * * * x",
        "a=b\n0 0 * * *",
        "a=b\n0 0 * * * x",
        "a=b\r\n0 0 * * * x\r\n",
        "60 * * * * x\nexport A=b\n0 0 1 * mon-sun\n@reboot x",
    ] {
        format.write("table", table);
        let verdict = format.verdict("table");
        for options in [
            &["table"][..],
            &["-l", "table"],
            &["-d", "table"],
            &["-w", "table"],
        ] {
            assert_eq!(
                all(&format.run(options)),
                is("", &verdict, 1),
                "{options:?}"
            );
            assert_eq!(format.read("table"), table.as_bytes());
        }
    }
}

/// The place of 21 is the line that would be too long, or the whole text.
#[test]
fn a_text_that_is_too_long_is_refused_at_its_line() {
    let format = format_in("format-too-long");
    let long = format!("@daily {}\n", "x".repeat(LINE_BYTES - 9));
    assert_eq!(normal_text(long.as_bytes()), Err(21));
    format.write("line", format!("# one\nA = b\n{long}{long}"));
    let output = format.run(&["-l", "line"]);
    // 73 columns of the line, and that more follow.
    let shown = format!("    @daily {}...\n    ^\n", "x".repeat(66));
    let told = format!("line:3:1: error: {TOO_LONG} [21]\n{shown}line: refused: 1 error\n");
    assert_eq!(all(&output), is("", &told, 1));
    // Each line fits, and all of them don't.
    let mut random = Random::seeded();
    let table = samples::table_written_in(&mut random, TABLE_BYTES + 1);
    format.write("whole", &table);
    let output = format.run(&["whole"]);
    let told = format!("whole:0:0: error: {TOO_LONG} [21]\nwhole: refused: 1 error\n");
    assert_eq!(all(&output), is("", &told, 1));
}

#[test]
fn the_names_of_files_that_differ_are_listed() {
    let format = format_in("format-list");
    format.write("one", TABLE);
    format.write("normal", TEXT);
    format.write("empty", "");
    format.write("two newlines", "A=b\n\n");
    format.write("comment", "# A=b\n");
    let names = ["one", "normal", "empty", "two newlines", "comment"];
    for option in ["-l", "--list"] {
        let output = format.run(&[&[option], &names[..]].concat());
        assert_eq!(all(&output), is("one\ntwo newlines\ncomment\n", "", 0));
    }
    assert_eq!(all(&format.run(&["normal", "-l"])), is("", "", 0));
    assert_eq!(all(&format.run_with(&["-l"], b"A = b\n")), is("-\n", "", 0));
    assert_eq!(all(&format.run_with(&["-l", "-"], b"A=b\n")), is("", "", 0));
}

#[test]
fn odd_names_are_printed_as_they_are() {
    let format = format_in("format-names");
    for name in [
        "--help",
        "-w",
        "%s %n",
        "l\nine",
        "caf\u{e9}",
        &"n".repeat(255),
    ] {
        format.write(name, "A = b\n");
        assert_eq!(
            all(&format.run(&["-l", "--", name])),
            is(&format!("{name}\n"), "", 0)
        );
        let path = format.folder.join(name);
        assert_eq!(
            told(&format.run(&["-l", word(&path)])).0,
            format!("{}\n", word(&path))
        );
        let diff = format!("--- {name}.orig\n+++ {name}\n@@ -1,1 +1,1 @@\n-A = b\n+A=b\n");
        assert_eq!(all(&format.run(&["-d", "--", name])), is(&diff, "", 0));
        assert_eq!(all(&format.run(&["-w", "--", name])), is("", "", 0));
        assert_eq!(format.read(name), b"A=b\n");
    }
}

#[test]
fn what_cannot_be_read_is_said() {
    let format = format_in("format-unreadable");
    for (name, why) in [
        ("missing", "No such file or directory"),
        (word(&format.folder), "Is a directory"),
        ("", "No such file or directory"),
    ] {
        for option in ["-l", "-d", "-w"] {
            let complaint = format!("eremothyn format: {name}: {why}\n");
            assert_eq!(all(&format.run(&[name])), is("", &complaint, 2));
            assert_eq!(all(&format.run(&[option, name])), is("", &complaint, 2));
        }
    }
    let endless = "/dev/zero:0:0: error: the table has more than 49152 bytes [1]\n/dev/zero: refused: 1 error\n";
    assert_eq!(all(&format.run(&["/dev/zero"])), is("", endless, 1));
}

/// Wrong arguments are said before any file is read or written.
#[test]
fn wrong_arguments_are_said() {
    let format = format_in("format-misused");
    format.write("table", TABLE);
    let hint = "See 'eremothyn format --help'.\n";
    let rows: [(&[&str], &str); 8] = [
        (&["-w"], "standard input can't be rewritten"),
        (&["-w", "-"], "standard input can't be rewritten"),
        (&["-w", "table", "-"], "standard input can't be rewritten"),
        (
            &["-", "-l", "-w", "-d"],
            "standard input can't be rewritten",
        ),
        (&["-w", "table", "-s"], "unknown option '-s'"),
        (&["-lw", "table"], "unknown option '-lw'"),
        (&["-w", "--lists", "table"], "unknown option '--lists'"),
        (&["--write=1", "table"], "unknown option '--write=1'"),
    ];
    for (arguments, wrong) in rows {
        let output = format.run_with(arguments, TABLE.as_bytes());
        let complaint = format!("eremothyn format: {wrong}\n{hint}");
        assert_eq!(all(&output), is("", &complaint, 2), "{arguments:?}");
        assert_eq!(format.read("table"), TABLE.as_bytes());
    }
}

/// A standard output that can't be written is said once, and the status tells it.
#[test]
fn a_full_standard_output_is_an_error() {
    let format = format_in("format-full");
    format.write("table", TABLE);
    format.write("normal", TEXT);
    let rows: [(&[&str], bool); 6] = [
        (&["table"], true),
        (&["table", "normal"], true),
        (&["-l", "table", "table"], true),
        (&["-d", "table"], true),
        // Nothing has to be written.
        (&["-l", "normal"], false),
        (&["/dev/null"], false),
    ];
    for (arguments, is_error) in rows {
        let output = filled(&mut format.command(arguments));
        let said = "eremothyn format: standard output: No space left on device\n";
        let (text, status) = if is_error { (said, 2) } else { ("", 0) };
        assert_eq!(complaint(&output), text, "{arguments:?}");
        assert_eq!(output.status.code(), Some(status), "{arguments:?}");
    }
}

/// Random good and damaged tables: the text, or the refusal, is the reference program's.
#[test]
fn it_prints_what_the_second_program_writes() {
    let format = format_in("format-random");
    let mut random = Random::seeded();
    for round in 0..600 {
        let good = samples::table(&mut random, round % 12);
        let table = match round % 3 {
            0 => reference::table::samples::mutated(&mut random, &good),
            _ => good,
        };
        format.write("table", &table);
        let output = format.run(&["table"]);
        match (normal_text(&table), read(&table, Kind::User)) {
            (Ok(text), _) => {
                assert_eq!((output.stdout, output.status.code()), (text, Some(0)));
            }
            (Err(_), Err(fault)) => {
                let place = format!("table:{}:{}: error: ", fault.line, fault.column);
                let complaint = complaint(&output);
                let first = complaint.lines().next().expect("a line");
                let number = format!(" [{}]", fault.number);
                assert!(first.starts_with(&place), "{complaint}");
                assert!(first.ends_with(&number), "{complaint}");
                assert_eq!((output.stdout.len(), output.status.code()), (0, Some(1)));
            }
            (Err(number), Ok(_)) => panic!("{number}: {}", table.escape_ascii()),
        }
    }
}
