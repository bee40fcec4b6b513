//! Names, standard input, the longest files, what can't be read, and a standard output that can't be written.

use super::{check_in, short};
use c::{all, complaint, filled, is, word};
use reference::table::TABLE_BYTES;
use std::fs::{self, Permissions};
use std::os::unix::fs::PermissionsExt;
use std::os::unix::process::CommandExt;
use std::process::Command;

/// Names are printed as they were given; behind `--` they may look like options.
#[test]
fn long_and_odd_names_are_names() {
    let check = check_in("check-names");
    let long = "n".repeat(255);
    for name in [
        "--help",
        "-x",
        "--",
        "%s %n",
        "a:3:4",
        "l\nine",
        "caf\u{e9} \u{1f319}",
        &long,
    ] {
        let path = check.write(name, "0 0 * * * x\n");
        let line = format!("{}: 1 entry\n", word(&path));
        assert_eq!(all(&check.run(&[&path])), is(&line, "", 0));
        let line = format!("{name}: 1 entry\n");
        assert_eq!(all(&check.run(&["--", name])), is(&line, "", 0));
        check.write(name, "* * * * *\n0 0 31 2 * x\n");
        let told = format!("{name}:1:10: error: no command after the time [9]\n");
        let shown = format!("{told}    * * * * *\n             ^\n{name}: refused: 1 error\n");
        assert_eq!(all(&check.run(&["--", name])), is(&shown, "", 1));
        assert_eq!(all(&check.run(&["--short", "--", name])), is(&told, "", 1));
    }
    // A file named `-` has another name, too.
    check.write("-", "0 0 * * * x\n");
    assert_eq!(all(&check.run(&["./-"])), is("./-: 1 entry\n", "", 0));
}

#[test]
fn a_dash_is_standard_input() {
    let check = check_in("check-input");
    check.write("-", "@");
    let bad = "-:2:1: error: neither an entry nor a setting, which is name=value [11]\n";
    let rows: [(&[&str], &[u8], &str, i32); 5] = [
        (&["-"], b"@daily x\n", "-: 1 entry\n", 0),
        (&["-"], b"", "-: 0 entries\n", 0),
        (&["-", "--short"], b"\nx", bad, 1),
        (&["--", "-"], b"@daily x\n", "-: 1 entry\n", 0),
        // What has been read once is read.
        (&["-", "-"], b"@daily x\n", "-: 1 entry\n-: 0 entries\n", 0),
    ];
    for (arguments, input, text, status) in rows {
        let output = check.run_with(arguments, input);
        assert_eq!(all(&output), is(text, "", status), "{arguments:?}");
    }
    let long = all(&check.run_with(&["-"], &[b'\n'; 1 << 20]));
    let told = "-:0:0: error: the table has more than 49152 bytes [1]\n-: refused: 1 error\n";
    assert_eq!(long, is(told, "", 1));
}

/// At the limit, and with as many bad lines as there can be.
#[test]
fn the_longest_tables() {
    let check = check_in("check-longest");
    let rows: [(Vec<u8>, &str, i32); 4] = [
        (vec![b'\n'; TABLE_BYTES], "t: 0 entries\n", 0),
        ("#\n".repeat(TABLE_BYTES / 2).into(), "t: 0 entries\n", 0),
        (
            vec![b'\n'; TABLE_BYTES + 1],
            "t:0:0: error: the table has more than 49152 bytes [1]\n",
            1,
        ),
        (
            vec![0; TABLE_BYTES + 1],
            "t:0:0: error: the table has more than 49152 bytes [1]\n",
            1,
        ),
    ];
    for (table, text, status) in rows {
        check.write("t", table);
        assert_eq!(all(&check.run(&["--short", "t"])), is(text, "", status));
    }
    let told = short(&check, &[], "@\n".repeat(TABLE_BYTES / 2));
    assert_eq!(told.len(), 24_576);
    for (before, line) in told.iter().enumerate() {
        let start = format!("t:{}:1: error: '@' is not one of ", before + 1);
        assert!(
            line.starts_with(&start) && line.ends_with(" [10]"),
            "{line}"
        );
    }
    let text = all(&check.run(&["t"])).0;
    assert!(text.ends_with("\nt: refused: 24576 errors\n"));
    // One line of all the bytes.
    let told = short(&check, &[], vec![b'x'; TABLE_BYTES]);
    assert_eq!(
        told,
        ["t:1:1001: error: the line has 49152 bytes, more than 1000 [2]"]
    );
}

#[test]
fn what_cannot_be_read_is_said() {
    let check = check_in("check-unreadable");
    for (name, why) in [
        ("missing", "No such file or directory"),
        (word(&check.folder), "Is a directory"),
        ("", "No such file or directory"),
    ] {
        let line = format!("eremothyn check: {name}: {why}\n");
        assert_eq!(all(&check.run(&[name])), is("", &line, 2));
        assert_eq!(all(&check.run(&["-q", "--short", name])), is("", &line, 2));
    }
    let endless = all(&check.run(&["--short", "/dev/zero"]));
    let told = "/dev/zero:0:0: error: the table has more than 49152 bytes [1]\n";
    assert_eq!(endless, is(told, "", 1));
}

/// Root may read all: where the test runs as root, the command runs as another, from a folder that is open to all.
#[test]
fn what_may_not_be_read_is_said() {
    const NOBODY: u32 = 65_534;
    let check = check_in("check-forbidden");
    let folder = std::env::temp_dir().join(format!("eremothyn-check-{}", std::process::id()));
    fs::create_dir_all(&folder).expect("a folder");
    let (program, table) = (folder.join("program"), folder.join("table"));
    check.copy_program(&program);
    fs::write(&table, "").expect("a file");
    for (path, mode) in [(&folder, 0o755), (&program, 0o755), (&table, 0)] {
        fs::set_permissions(path, Permissions::from_mode(mode)).expect("the mode is set");
    }
    let mut command = Command::new(&program);
    command.args(["check", word(&table)]).current_dir("/");
    if Command::new("id")
        .arg("-u")
        .output()
        .expect("id runs")
        .stdout
        == b"0\n"
    {
        command.uid(NOBODY);
    }
    let output = command.output().expect("the command runs");
    fs::remove_dir_all(&folder).expect("it goes");
    let line = format!("eremothyn check: {}: Permission denied\n", word(&table));
    assert_eq!(all(&output), is("", &line, 2));
}

/// A standard output that is full is said once, and the status tells it; where nothing has to be written, nothing fails.
#[test]
fn a_full_standard_output_is_an_error() {
    let check = check_in("check-full");
    check.write("good", "@daily x\n");
    check.write("bad", "@\n".repeat(10_000));
    let rows: [(&[&str], bool); 7] = [
        (&["good"], true),
        (&["good", "good"], true),
        (&["bad"], true),
        (&["--short", "bad", "good"], true),
        (&["-q", "bad", "missing"], true),
        (&["-q", "good"], false),
        (&["-q", "good", "/dev/null"], false),
    ];
    for (arguments, is_error) in rows {
        let output = filled(&mut check.command(arguments));
        let said = "eremothyn check: standard output: No space left on device\n";
        let complaint = complaint(&output);
        assert_eq!(complaint.contains(said), is_error, "{arguments:?}");
        assert_eq!(complaint.matches(said).count(), usize::from(is_error));
        let status = if is_error { 2 } else { 0 };
        assert_eq!(output.status.code(), Some(status), "{arguments:?}");
    }
}

/// The same for one that is closed; the file that is read may get its number.
#[test]
fn a_closed_standard_output_is_an_error() {
    let check = check_in("check-closed");
    check.write("good", "@daily x\n");
    check.write("bad", "@\n".repeat(10_000));
    let said = "eremothyn check: standard output: Bad file descriptor\n";
    let rows: [&[&str]; 3] = [&["good"], &["bad"], &["--short", "bad", "good"]];
    for arguments in rows {
        let closed = check.run_before(arguments, ">&-");
        assert_eq!(all(&closed), is("", said, 2), "{arguments:?}");
    }
    let closed = check.run_before(&["-q", "good"], ">&-");
    assert_eq!(all(&closed), is("", "", 0));
}
