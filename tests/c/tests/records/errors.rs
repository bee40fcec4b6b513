//! What both say of wrong arguments, and of what can't be read or written.

use c::{all, filled, is, word, Subcommand};
use reference::table::records::known::{hex, RECORDS, TABLE};

const BOTH: [&str; 2] = ["compile", "decompile"];

#[test]
fn what_cannot_be_read_is_said() {
    for name in BOTH {
        let subcommand = Subcommand::new(name, &format!("{name}-unreadable"));
        for (file, why) in [
            ("missing", "No such file or directory"),
            (word(&subcommand.folder), "Is a directory"),
            ("", "No such file or directory"),
        ] {
            let complaint = format!("eremothyn {name}: {file}: {why}\n");
            assert_eq!(all(&subcommand.run(&[file])), is("", &complaint, 2));
        }
    }
}

#[test]
fn wrong_arguments_are_said() {
    let rows: [(&[&str], &str); 5] = [
        (&["one", "two"], "more than one file is named"),
        (&["-", "-"], "more than one file is named"),
        (&["-x", "one"], "unknown option '-x'"),
        (&["one", "--quiet"], "unknown option '--quiet'"),
        (&["-ff", "one"], "unknown option '-ff'"),
    ];
    for name in BOTH {
        let subcommand = Subcommand::new(name, &format!("{name}-misused"));
        for (arguments, wrong) in rows {
            let hint = format!("See 'eremothyn {name} --help'.\n");
            let complaint = format!("eremothyn {name}: {wrong}\n{hint}");
            assert_eq!(all(&subcommand.run(arguments)), is("", &complaint, 2));
        }
    }
}

/// A standard output that can't be written is said once, and the status tells it.
#[test]
fn a_full_standard_output_is_an_error() {
    let files = [TABLE.into(), hex(RECORDS)];
    for (name, bytes) in BOTH.into_iter().zip(files) {
        let subcommand = Subcommand::new(name, &format!("{name}-full"));
        subcommand.write("file", bytes);
        let output = filled(&mut subcommand.command(&["file"]));
        let complaint = format!("eremothyn {name}: standard output: No space left on device\n");
        assert_eq!(all(&output), is("", &complaint, 2));
    }
}
