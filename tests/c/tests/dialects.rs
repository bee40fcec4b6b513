//! `--dialect` of the subcommands that read crontabs.

use c::{all, is, root, told, Subcommand};
use reference::random::Random;
use reference::table::normal::normal_text_of;
use reference::table::records::compiled_of;
use reference::table::{samples, Dialect};
use std::fs;

const READERS: [&str; 3] = ["check", "format", "compile"];

/// Good in the second dialect alone, and its normal text.
const NIGHT: &str = "# by night\n0 8-18/3,19-7 * * *  roof look\n0 22-3/2 * * fri-sun cool\n";
const TEXT: &str =
    "0 0,1,2,3,4,5,6,7,8,11,14,17,19,20,21,22,23 * * * roof look\n0 0,2,22 * * 0,5,6 cool\n";
const REVERSED: &str = "\
night:2:10: error: hour: 19-7 is a range from high to low, which only the wrapping dialect has [7]
    0 8-18/3,19-7 * * *  roof look
             ^~~~
    hint: two ranges say it in either dialect, as 22-23,0-3 for 22-3
night:3:3: error: hour: 22-3/2 is a range from high to low, which only the wrapping dialect has [7]
    0 22-3/2 * * fri-sun cool
      ^~~~~~
night: refused: 2 errors
";

/// Good in the first dialect alone.
const SUNDAY: &str = "0 0 * * 7 rest\n";
const OUTSIDE: &str = "\
sunday:1:9: error: weekday: 7 is outside 0-6 [6]
    0 0 * * 7 rest
            ^
    hint: in the wrapping dialect Sunday is 0
sunday: refused: 1 error
";

fn in_folder(name: &'static str, folder: &str) -> Subcommand {
    let subcommand = Subcommand::new(name, folder);
    subcommand.write("night", NIGHT);
    subcommand.write("sunday", SUNDAY);
    subcommand
}

const TAKEN: &str = "night: 2 entries\n";
const NO_COMMAND: &str = "\
night:3:26: error: no command after the user [9]
    0 22-3/2 * * fri-sun cool
                             ^
    hint: in a system table a user stands before the command
night: refused: 1 error
";

/// Arguments of `check`, the lines that it prints, and its status.
const CHECKED: [(&[&str], &[&str], i32); 14] = [
    (&["night"], &[REVERSED], 1),
    (&["sunday"], &["sunday: 1 entry\n"], 0),
    (&["--dialect", "rising", "night"], &[REVERSED], 1),
    (&["--dialect=rising", "night"], &[REVERSED], 1),
    (&["--dialect", "wrapping", "night"], &[TAKEN], 0),
    (&["--dialect=wrapping", "night"], &[TAKEN], 0),
    (&["night", "--dialect", "wrapping"], &[TAKEN], 0),
    (&["night", "--dialect=wrapping", "--"], &[TAKEN], 0),
    (&["--dialect=wrapping", "sunday"], &[OUTSIDE], 1),
    (
        &["night", "--dialect=wrapping", "sunday"],
        &[TAKEN, OUTSIDE],
        1,
    ),
    (
        &["--dialect=rising", "--dialect=wrapping", "night"],
        &[TAKEN],
        0,
    ),
    (
        &["--dialect=wrapping", "night", "--dialect", "rising"],
        &[REVERSED],
        1,
    ),
    (&["-s", "--dialect", "wrapping", "night"], &[NO_COMMAND], 1),
    (&["--", "--dialect"], &["--dialect: 1 entry\n"], 0),
];

/// Wherever the option stands, as two words or as one; the last one counts, and behind `--` it is a name.
#[test]
fn check_reads_in_the_dialect_that_is_named() {
    let check = in_folder("check", "dialect-check");
    check.write("--dialect", SUNDAY);
    for (arguments, text, status) in CHECKED {
        assert_eq!(
            all(&check.run(arguments)),
            is(&text.concat(), "", status),
            "{arguments:?}"
        );
    }
}

/// Arguments of `format`, what it prints and complains of, and its status.
const FORMATTED: [(&[&str], &str, &str, i32); 8] = [
    (&["night"], "", REVERSED, 1),
    (&["--dialect=wrapping", "night"], TEXT, "", 0),
    (&["--dialect", "wrapping", "sunday"], "", OUTSIDE, 1),
    // A normal text is its own in either.
    (&["--dialect=wrapping", "text"], TEXT, "", 0),
    (&["text"], TEXT, "", 0),
    (
        &["-l", "--dialect=wrapping", "night", "text"],
        "night\n",
        "",
        0,
    ),
    (&["-l", "--dialect=wrapping", "sunday"], "", OUTSIDE, 1),
    (
        &["-l", "--dialect", "rising", "text", "night"],
        "",
        REVERSED,
        1,
    ),
];

#[test]
fn format_reads_in_the_dialect_that_is_named() {
    let format = in_folder("format", "dialect-format");
    format.write("text", TEXT);
    for (arguments, text, complaint, status) in FORMATTED {
        let output = format.run(arguments);
        assert_eq!(all(&output), is(text, complaint, status), "{arguments:?}");
    }
    let diff = all(&format.run(&["--dialect=wrapping", "-d", "night"]));
    let [one, other] = [NIGHT, TEXT].map(|text| text.lines().collect::<Vec<&str>>());
    let removed = one.iter().map(|line| format!("-{line}\n"));
    let added = other.iter().map(|line| format!("+{line}\n"));
    let lines: String = removed.chain(added).collect();
    let expected = format!("--- night.orig\n+++ night\n@@ -1,3 +1,2 @@\n{lines}");
    assert_eq!(diff, is(&expected, "", 0));
    // Rewritten, it is the same in either.
    assert_eq!(
        all(&format.run(&["-w", "--dialect=wrapping", "night"])),
        is("", "", 0)
    );
    assert_eq!(format.read("night"), TEXT.as_bytes());
    assert_eq!(all(&format.run(&["night"])), is(TEXT, "", 0));
}

/// The place of 21 is found in the dialect, too.
#[test]
fn a_text_that_is_too_long_is_refused_at_its_line() {
    let format = in_folder("format", "dialect-too-long");
    let long = format!("55-54 * * * * {}\n", "x".repeat(900));
    format.write("long", format!("A=b\n{long}"));
    let (text, complaint, status) = all(&format.run(&["--dialect=wrapping", "long"]));
    assert!(
        complaint.starts_with("long:2:1: error: in normal form a line has more than 1000 bytes"),
        "{complaint}"
    );
    assert_eq!((text.as_str(), status), ("", Some(1)));
}

/// Records have no dialect, and `decompile` no such option.
#[test]
fn compile_reads_in_the_dialect_that_is_named() {
    let compile = in_folder("compile", "dialect-compile");
    assert_eq!(all(&compile.run(&["night"])), is("", REVERSED, 1));
    let sunday = all(&compile.run(&["--dialect=wrapping", "sunday"]));
    assert_eq!(sunday, is("", OUTSIDE, 1));
    let records = compile.run(&["--dialect=wrapping", "night"]).stdout;
    assert_eq!(
        compile.run_with::<&str>(&[], TEXT.as_bytes()).stdout,
        records
    );
    let decompile = in_folder("decompile", "dialect-decompile");
    let back = decompile.run_with::<&str>(&[], &records);
    assert_eq!(all(&back), is(TEXT, "", 0));
    let wrong =
        "eremothyn decompile: unknown option '--dialect'\nSee 'eremothyn decompile --help'.\n";
    let output = decompile.run_with(&["--dialect", "wrapping"], &records);
    assert_eq!(all(&output), is("", wrong, 2));
    let (help, _) = told(&decompile.run(&["--help"]));
    assert!(!help.contains("dialect"), "{help}");
}

/// Arguments, and what is wrong with them.
const WRONG: [(&[&str], &str); 10] = [
    (&["night", "--dialect"], "--dialect needs a value: NAME"),
    (
        &["--dialect=", "night"],
        "unknown dialect '': it is rising or wrapping",
    ),
    (
        &["--dialect", "", "night"],
        "unknown dialect '': it is rising or wrapping",
    ),
    (
        &["--dialect", "night"],
        "unknown dialect 'night': it is rising or wrapping",
    ),
    (
        &["--dialect", "--", "night"],
        "unknown dialect '--': it is rising or wrapping",
    ),
    (
        &["night", "--dialect=Wrapping"],
        "unknown dialect 'Wrapping': it is rising or wrapping",
    ),
    (
        &["--dialect=1", "night"],
        "unknown dialect '1': it is rising or wrapping",
    ),
    (
        &["--dialect=wrappings"],
        "unknown dialect 'wrappings': it is rising or wrapping",
    ),
    (&["--dialects", "rising"], "unknown option '--dialects'"),
    (&["-dialect", "rising"], "unknown option '-dialect'"),
];

/// A dialect that there isn't is said before any file is read, with the names of those that there are.
#[test]
fn unknown_dialects_are_said() {
    for name in READERS {
        let subcommand = in_folder(name, &format!("dialect-unknown-{name}"));
        for (arguments, wrong) in WRONG {
            let output = subcommand.run_with(arguments, NIGHT.as_bytes());
            let complaint = format!("eremothyn {name}: {wrong}\nSee 'eremothyn {name} --help'.\n");
            assert_eq!(all(&output), is("", &complaint, 2), "{arguments:?}");
        }
        let (help, _) = told(&subcommand.run(&["--help"]));
        assert!(help.contains("\n  --dialect NAME    rising, "), "{help}");
    }
}

/// Random tables of both dialects: texts and records are the reference program's.
#[test]
fn they_write_what_the_second_program_writes() {
    let [format, compile] =
        ["format", "compile"].map(|name| in_folder(name, &format!("dialect-random-{name}")));
    let mut random = Random::seeded();
    for round in 0..200 {
        let written = random.pick(&Dialect::BOTH);
        let table = samples::table(&mut random, written, round % 12);
        for (dialect, option) in [(Dialect::Rising, "rising"), (Dialect::Wrapping, "wrapping")] {
            let arguments = ["--dialect", option];
            let text = format.run_with(&arguments, &table).stdout;
            assert_eq!(text, normal_text_of(&table, dialect).unwrap_or_default());
            let records = compile.run_with(&arguments, &table).stdout;
            assert_eq!(records, compiled_of(&table, dialect).unwrap_or_default());
        }
    }
}

/// By hand: what the example table means.
#[test]
fn the_example_over_midnight() {
    let format = in_folder("format", "dialect-example");
    let table = fs::read(root().join("examples/over_midnight.crontab")).expect("the example");
    format.write("example", &table);
    let text = "SHELL=/bin/sh\n\
        0 0,1,2,3,4,5,6,7,8,11,14,17,19,20,21,22,23 * * * roof look\n\
        0 0,2,22 * * * camera cool\n\
        30 9 * * 0,5,6 visitors lights on\n\
        0 6 * 1,2,11,12 * road clear --snow\n";
    let found = format.run(&["--dialect", "wrapping", "example"]);
    assert_eq!(all(&found), is(text, "", 0));
    let (_, complaint, status) = all(&format.run(&["example"]));
    assert!(
        complaint.starts_with("example:5:10: error: hour: 19-7 "),
        "{complaint}"
    );
    assert_eq!(status, Some(1));
}
