//! `--system`, `--quiet`, `--short` and `--strict`, alone and together, and wrong arguments.

use super::check_in;
use c::{all, complaint, is, told};

/// With the option every file is a system table, wherever the option stands, and once is enough.
#[test]
fn system_tables_have_a_user_before_each_command() {
    let check = check_in("check-system");
    check.write("user", "0 0 * * * demo\n");
    check.write("system", "A=b\n0 0 * * * u demo\n@reboot u:g/l demo%x\n");
    check.write("-s", "0 0 * * * u demo\n");
    let none = "user:1:15: error: no command after the user [9]\n";
    let rows: [(&[&str], String, i32); 10] = [
        (&["user"], "user: 1 entry\n".into(), 0),
        // A user is the first word of a user table's command.
        (&["system"], "system: 2 entries\n".into(), 0),
        (&["-s", "system"], "system: 2 entries\n".into(), 0),
        (&["--system", "system"], "system: 2 entries\n".into(), 0),
        (&["system", "-s"], "system: 2 entries\n".into(), 0),
        (
            &["-s", "--system", "-s", "system"],
            "system: 2 entries\n".into(),
            0,
        ),
        (
            &["system", "-s", "user"],
            format!("system: 2 entries\n{none}"),
            1,
        ),
        (&["--", "-s"], "-s: 1 entry\n".into(), 0),
        (
            &["-s", "--", "-s", "user"],
            format!("-s: 1 entry\n{none}"),
            1,
        ),
        (
            &["--", "user", "-s"],
            "user: 1 entry\n-s: 1 entry\n".into(),
            0,
        ),
    ];
    for (arguments, text, status) in rows {
        let output = check.run(&[&["--short"], arguments].concat());
        assert_eq!(all(&output), is(&text, "", status), "{arguments:?}");
    }
    let input = check.run_with(&["-s", "--short", "-"], b"@daily u c\n@daily c\n");
    let line = "-:2:9: error: no command after the user [9]\n";
    assert_eq!(all(&input), is(line, "", 1));
}

const GOOD: &str = "@daily x\n";
const WARNED: &str = "0 0 30 2 * x\n";
const BAD: &str = "0 24 * * * x\n@reboot y\nexport A=b\n";

const NEVER: &str = "warned:1:5: warning: the entry never fires: there is no such date [never]\n";
const NEVER_SHOWN: &str = "    0 0 30 2 * x\n        ^~~~\n";
const HOUR: &str = "bad:1:3: error: hour: 24 is outside 0-23 [6]\n";
const HOUR_SHOWN: &str = "    0 24 * * * x\n      ^~\n    hint: midnight is hour 0\n";
const EXPORT: &str = "bad:3:1: error: neither an entry nor a setting, which is name=value [11]\n";
const EXPORT_SHOWN: &str =
    "    export A=b\n    ^~~~~~\n    hint: a setting is name=value, without export\n";

/// The three of them in every way: what stands below a diagnostic, the counts, and the status.
#[test]
fn quiet_short_and_strict() {
    let check = check_in("check-options");
    check.write("good", GOOD);
    check.write("warned", WARNED);
    check.write("bad", BAD);
    for options in 0..8 {
        let [quiet, short, strict] = [1, 2, 4].map(|bit| options & bit != 0);
        let given = [(quiet, "-q"), (short, "--short"), (strict, "--strict")];
        let given: Vec<&str> = given
            .into_iter()
            .filter_map(|(is_given, option)| is_given.then_some(option))
            .collect();
        let below = |text: &'static str| if short { "" } else { text };
        let count = |text: &'static str| if quiet { "" } else { text };
        let good = count("good: 1 entry\n").to_string();
        let warned = [
            NEVER,
            below(NEVER_SHOWN),
            count("warned: 1 entry, 1 warning\n"),
        ]
        .concat();
        let refused = below(count("bad: refused: 2 errors\n"));
        let bad = [
            HOUR,
            below(HOUR_SHOWN),
            EXPORT,
            below(EXPORT_SHOWN),
            refused,
        ]
        .concat();
        for (name, text, status) in [
            ("good", &good, 0),
            ("warned", &warned, i32::from(strict)),
            ("bad", &bad, 1),
        ] {
            let output = check.run(&[&given[..], &[name]].concat());
            assert_eq!(all(&output), is(text, "", status), "{given:?} {name}");
        }
        let output = check.run(&[&["good", "bad"], &given[..], &["warned"]].concat());
        let text = [good, bad, warned].concat();
        assert_eq!(all(&output), is(&text, "", 1), "{given:?}");
    }
    assert_eq!(
        told(&check.run(&["--quiet", "good"])),
        (String::new(), Some(0))
    );
}

/// The highest status counts: 2 before 1, whatever the order.
#[test]
fn several_files_have_the_worst_status() {
    let check = check_in("check-several");
    check.write("good", "");
    check.write("warned", WARNED);
    check.write("bad", "@");
    let rows: [(&[&str], i32); 8] = [
        (&["good", "good"], 0),
        (&["good", "warned"], 0),
        (&["bad", "good"], 1),
        (&["good", "bad", "good"], 1),
        (&["missing", "bad", "good"], 2),
        (&["bad", "missing", "good"], 2),
        (&["--strict", "warned", "good"], 1),
        (&["--strict", "good", "missing", "warned"], 2),
    ];
    for (arguments, status) in rows {
        assert_eq!(
            check.run(arguments).status.code(),
            Some(status),
            "{arguments:?}"
        );
    }
}

/// Wrong arguments are said before any file is read.
#[test]
fn wrong_arguments_are_said() {
    let check = check_in("check-misused");
    check.write("good", "");
    let hint = "See 'eremothyn check --help'.\n";
    let rows: [(&[&str], &str); 13] = [
        (&[], "no file is named"),
        (&["--"], "no file is named"),
        (&["-s"], "no file is named"),
        (&["-q", "--short", "--strict"], "no file is named"),
        (&["-ss", "good"], "unknown option '-ss'"),
        (&["--s", "good"], "unknown option '--s'"),
        (&["--system=1", "good"], "unknown option '--system=1'"),
        (&["--short=1", "good"], "unknown option '--short=1'"),
        (&["-x", "good"], "unknown option '-x'"),
        (&["good", "-x"], "unknown option '-x'"),
        (&["--helpp"], "unknown option '--helpp'"),
        (&["-hx", "good"], "unknown option '-hx'"),
        (&["--stricter", "good"], "unknown option '--stricter'"),
    ];
    for (arguments, wrong) in rows {
        let output = check.run(arguments);
        assert_eq!(told(&output), (String::new(), Some(2)), "{arguments:?}");
        assert_eq!(
            complaint(&output),
            format!("eremothyn check: {wrong}\n{hint}")
        );
    }
    let (help, _) = told(&check.run(&["--help"]));
    for option in [
        "-s, --system ",
        "-q, --quiet ",
        "--short ",
        "--strict ",
        "--dialect NAME ",
    ] {
        assert!(help.contains(&format!("\n  {option} ")), "{help}");
    }
}
