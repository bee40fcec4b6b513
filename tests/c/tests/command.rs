//! `eremothyn` itself: help, the version, and what isn't a subcommand.

use c::{build_command, complaint, filled, root, run, scratch, told};
use std::fs;
use std::process::Command;

/// The subcommands, as the overview lists them.
fn subcommands(overview: &str) -> Vec<&str> {
    let rows = overview.lines().filter_map(|line| line.strip_prefix("  "));
    rows.filter(|row| !row.starts_with(' '))
        .filter_map(|row| row.split_whitespace().next())
        .collect()
}

#[test]
fn help_is_printed_in_each_of_its_ways() {
    let program = build_command(&scratch("command-help"));
    let (overview, status) = told(&run(&program, &["help"]));
    assert_eq!(status, Some(0));
    for way in ["--help", "-h"] {
        assert_eq!(told(&run(&program, &[way])), (overview.clone(), Some(0)));
    }
    let names = subcommands(&overview);
    assert!(names.contains(&"check"), "{overview}");
    for name in names {
        let (help, status) = told(&run(&program, &["help", name]));
        assert_eq!(status, Some(0));
        let usage = format!("usage: eremothyn {name} ");
        assert!(help.starts_with(&usage), "{help}");
        let ways: [&[&str]; 4] = [
            &[name, "--help"],
            &[name, "-h"],
            &[name, "a", "--help"],
            &["--help", name],
        ];
        for way in ways {
            assert_eq!(
                told(&run(&program, way)),
                (help.clone(), Some(0)),
                "{way:?}"
            );
        }
    }
}

/// Every subcommand has a page, and the command's own page names it.
#[test]
fn every_subcommand_has_a_page() {
    let program = build_command(&scratch("command-pages"));
    let (overview, _) = told(&run(&program, &["help"]));
    let packaging = root().join("packaging");
    let page = fs::read_to_string(packaging.join("eremothyn.1")).expect("the page");
    for name in subcommands(&overview) {
        let own = packaging.join(format!("eremothyn-{name}.1"));
        assert!(own.is_file(), "no page {own:?}");
        assert!(page.contains(&format!("eremothyn-{name} (1)")), "{name}");
    }
}

#[test]
fn the_version_is_the_header_s() {
    let program = build_command(&scratch("command-version"));
    let (text, status) = told(&run(&program, &["--version"]));
    assert_eq!(status, Some(0));
    let version = text.trim_end().strip_prefix("eremothyn ").expect("a name");
    let header = fs::read_to_string(root().join("include/eremothyn.h")).expect("the header");
    assert!(header.contains(&format!("EREMOTHYN_VERSION \"{version}\"\n")));
}

#[test]
fn what_is_no_subcommand_is_said() {
    let program = build_command(&scratch("command-unknown"));
    let rows: [(&[&str], &str); 7] = [
        (&[], "no subcommand is named"),
        (&["chek", "a"], "unknown subcommand 'chek'"),
        (&[""], "unknown subcommand ''"),
        (&["Check"], "unknown subcommand 'Check'"),
        (&["-x"], "unknown option '-x'"),
        (&["--"], "unknown option '--'"),
        (
            &["help", "chek"],
            "no help for 'chek', which is no subcommand",
        ),
    ];
    for (arguments, wrong) in rows {
        let output = run(&program, arguments);
        assert_eq!(told(&output), (String::new(), Some(2)), "{arguments:?}");
        let text = format!("eremothyn: {wrong}\nSee 'eremothyn --help'.\n");
        assert_eq!(complaint(&output), text);
    }
}

/// A full standard output is an error whatever was to be written, and is said once.
#[test]
fn a_full_standard_output_is_an_error() {
    let program = build_command(&scratch("command-full"));
    let rows: [(&[&str], &str); 6] = [
        (&["help"], "eremothyn"),
        (&["--version"], "eremothyn"),
        (&["help", "check"], "eremothyn"),
        (&["check", "--help"], "eremothyn check"),
        (&["check", "/dev/null"], "eremothyn check"),
        (&["check", "/dev/null", "/dev/zero"], "eremothyn check"),
    ];
    for (arguments, name) in rows {
        let output = filled(Command::new(&program).args(arguments));
        assert_eq!(output.status.code(), Some(2), "{arguments:?}");
        let text = format!("{name}: standard output: No space left on device\n");
        assert_eq!(complaint(&output), text, "{arguments:?}");
    }
}
