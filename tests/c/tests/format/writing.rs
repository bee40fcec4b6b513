//! `-w`: a file is rewritten whole or not at all, and stays the file that it was.

use super::{all, format_in, is};
use c::{complaint, word, Subcommand};
use std::fs::{self, Permissions};
use std::os::unix::fs::{chown, symlink, MetadataExt, PermissionsExt};
use std::os::unix::process::CommandExt;
use std::path::{Path, PathBuf};
use std::process::{Command, Output, Stdio};
use std::thread;

const TABLE: &str = "# office\nA = b\n@daily  rotate\n";
const TEXT: &str = "A=b\n0 0 * * * rotate\n";

/// The user that a test runs as where root is allowed too much.
const NOBODY: u32 = 65_534;

fn set_mode(path: &Path, mode: u32) {
    fs::set_permissions(path, Permissions::from_mode(mode)).expect("the mode is set");
}

/// The names in a folder, in order.
fn names(folder: &Path) -> Vec<String> {
    let entries = fs::read_dir(folder).expect("a folder");
    let mut names: Vec<String> = entries
        .map(|entry| {
            entry
                .expect("an entry")
                .file_name()
                .to_string_lossy()
                .into_owned()
        })
        .collect();
    names.sort();
    names
}

#[test]
fn files_are_rewritten() {
    let format = format_in("format-write");
    let before = names(&format.folder);
    for option in ["-w", "--write"] {
        format.write("one", TABLE);
        format.write("two", "# a\n");
        format.write("three", "A='b'\n");
        let output = format.run(&[option, "one", "two", "three"]);
        assert_eq!(all(&output), is("", "", 0));
        assert_eq!(format.read("one"), TEXT.as_bytes());
        assert_eq!(format.read("two"), b"");
        assert_eq!(format.read("three"), b"A=b\n");
    }
    // Nothing else is left behind.
    let left = names(&format.folder).len();
    assert_eq!(left, before.len() + 3);
}

#[test]
fn a_file_in_normal_form_is_not_touched() {
    let format = format_in("format-untouched");
    let path = format.write("table", TEXT);
    set_mode(&path, 0o400);
    let before = fs::metadata(&path).expect("a file");
    for options in [&["-w"][..], &["-l", "-w", "-d"]] {
        let output = format.run(&[options, &["table"]].concat());
        assert_eq!(all(&output), is("", "", 0));
    }
    let after = fs::metadata(&path).expect("a file");
    let seen = |of: &fs::Metadata| (of.ino(), of.mtime_nsec(), of.ctime_nsec(), of.mode());
    assert_eq!(seen(&after), seen(&before));
    // A file that differs is a new one.
    set_mode(&path, 0o600);
    let path = format.write("table", TABLE);
    let before = fs::metadata(&path).expect("a file");
    assert_eq!(all(&format.run(&["-w", "table"])), is("", "", 0));
    assert_ne!(fs::metadata(&path).expect("a file").ino(), before.ino());
}

/// As gofmt has it: its name, the new text, the difference.
#[test]
fn options_can_be_joined() {
    let format = format_in("format-joined");
    let diff = "--- table.orig\n+++ table\n@@ -1,3 +1,2 @@\n-# office\n-A = b\n-@daily  rotate\n+A=b\n+0 0 * * * rotate\n";
    let listed = format!("table\n{diff}");
    let rows: [(&[&str], &str, bool); 6] = [
        (&["-l", "-w"], "table\n", true),
        (&["-w", "-d"], diff, true),
        (&["-d", "-w"], diff, true),
        (&["-l", "-d"], &listed, false),
        (&["-d", "-w", "-l"], &listed, true),
        (&["-l", "-l"], "table\n", false),
    ];
    for (options, text, is_written) in rows {
        format.write("table", TABLE);
        let output = format.run(&[options, &["table"]].concat());
        assert_eq!(all(&output), is(text, "", 0), "{options:?}");
        let expected = if is_written { TEXT } else { TABLE };
        assert_eq!(format.read("table"), expected.as_bytes(), "{options:?}");
    }
}

#[test]
fn a_refused_file_stays_and_the_others_are_rewritten() {
    let format = format_in("format-write-refused");
    format.write("one", TABLE);
    let bad = format.write("bad", "A = b\n60 0 * * * x\n");
    format.write("two", TABLE);
    let before = fs::metadata(&bad).expect("a file").ino();
    let output = format.run(&["-w", "-l", "one", "bad", "two"]);
    assert_eq!((c::told(&output)), ("one\ntwo\n".to_string(), Some(1)));
    assert!(complaint(&output).starts_with("bad:2:1: error: minute: 60 is outside 0-59 [6]\n"));
    assert_eq!(format.read("bad"), b"A = b\n60 0 * * * x\n");
    assert_eq!(fs::metadata(&bad).expect("a file").ino(), before);
    for name in ["one", "two"] {
        assert_eq!(format.read(name), TEXT.as_bytes());
    }
}

#[test]
fn the_mode_is_kept() {
    let format = format_in("format-mode");
    for mode in [
        0o600, 0o640, 0o644, 0o664, 0o666, 0o755, 0o1644, 0o2755, 0o4711,
    ] {
        let path = format.write("table", TABLE);
        set_mode(&path, mode);
        assert_eq!(all(&format.run(&["-w", "table"])), is("", "", 0));
        let found = fs::metadata(&path).expect("a file").mode() & 0o7777;
        assert_eq!(found, mode, "{found:o}");
        assert_eq!(format.read("table"), TEXT.as_bytes());
        fs::remove_file(path).expect("the file goes");
    }
}

/// Only root can give a file away: others can't have the case.
#[test]
fn the_owner_is_kept() {
    if !is_root() {
        return;
    }
    let format = format_in("format-owner");
    for (user, group) in [(1_234, 5_678), (0, 5_678), (1_234, 0)] {
        let path = format.write("table", TABLE);
        chown(&path, Some(user), Some(group)).expect("the owner is set");
        set_mode(&path, 0o6750);
        assert_eq!(all(&format.run(&["-w", "table"])), is("", "", 0));
        let found = fs::metadata(&path).expect("a file");
        assert_eq!((found.uid(), found.gid()), (user, group));
        assert_eq!(found.mode() & 0o7777, 0o6750);
        assert_eq!(format.read("table"), TEXT.as_bytes());
    }
}

#[test]
fn a_link_stays_and_its_file_is_rewritten() {
    let format = Subcommand::new_outside("format", "format-link");
    let other = format.folder.join("other");
    fs::create_dir(&other).expect("a folder");
    let file = format.write("other/table", TABLE);
    let before = names(&format.folder);
    let links = [
        ("to file", "other/table"),
        ("to link", "to file"),
        ("absolute", word(&file)),
    ];
    for (link, target) in links {
        format.write("other/table", TABLE);
        symlink(target, format.folder.join(link)).expect("a link");
        let output = format.run(&["-w", "-l", link]);
        assert_eq!(all(&output), is(&format!("{link}\n"), "", 0));
        let found = fs::read_link(format.folder.join(link)).expect("still a link");
        assert_eq!(found, Path::new(target));
        assert_eq!(format.read("other/table"), TEXT.as_bytes());
        assert!(fs::symlink_metadata(&file).expect("a file").is_file());
    }
    assert_eq!(names(&other), ["table"]);
    assert_eq!(names(&format.folder).len(), before.len() + links.len());
    // From within another folder, and by a path that goes through a linked one.
    symlink("other", format.folder.join("folder")).expect("a link");
    format.write("other/table", TABLE);
    assert_eq!(all(&format.run(&["-w", "folder/table"])), is("", "", 0));
    assert_eq!(format.read("other/table"), TEXT.as_bytes());
    // A link to nothing.
    symlink("nowhere", format.folder.join("broken")).expect("a link");
    let complaint = "eremothyn format: broken: No such file or directory\n";
    assert_eq!(all(&format.run(&["-w", "broken"])), is("", complaint, 2));
    let _ = fs::remove_dir_all(&format.folder);
}

/// Another name of the same file keeps the old text.
#[test]
fn a_hard_link_is_left_behind() {
    let format = format_in("format-hard-link");
    let path = format.write("table", TABLE);
    fs::hard_link(&path, format.folder.join("again")).expect("a link");
    assert_eq!(all(&format.run(&["-w", "table"])), is("", "", 0));
    assert_eq!(format.read("table"), TEXT.as_bytes());
    assert_eq!(format.read("again"), TABLE.as_bytes());
}

#[test]
fn what_is_no_regular_file_is_not_replaced() {
    let format = format_in("format-pipe");
    let path = format.folder.join("pipe");
    let made = Command::new("mkfifo").arg(&path).status();
    assert!(made.expect("mkfifo runs").success());
    let writer = {
        let path = path.clone();
        thread::spawn(move || fs::write(path, TABLE))
    };
    let output = format.run(&["-w", "pipe"]);
    let complaint = "eremothyn format: pipe: Not a regular file\n";
    assert_eq!(all(&output), is("", complaint, 2));
    writer.join().expect("the writer ends").expect("it is read");
    assert!(!fs::symlink_metadata(&path).expect("a pipe").is_file());
}

/// A disk that takes no more: the new file can't be written, and the old one stays.
#[test]
fn a_file_that_cannot_be_written_whole_stays() {
    let format = format_in("format-no-space");
    let path = format.write("table", TABLE);
    format.write("normal", TEXT);
    let before = names(&format.folder);
    let inode = fs::metadata(&path).expect("a file").ino();
    // No file may grow beyond 0 bytes, and the signal for that is ignored.
    let output = Command::new("sh")
        .current_dir(&format.folder)
        .args(["-c", "trap '' XFSZ; ulimit -f 0; exec \"$@\"", "sh"])
        .arg(&format.program)
        .args(["format", "-l", "-w", "-d", "table", "normal"])
        .output()
        .expect("the command runs");
    let complaint = "eremothyn format: table: File too large\n";
    assert_eq!(all(&output), is("table\n", complaint, 2));
    assert_eq!(format.read("table"), TABLE.as_bytes());
    assert_eq!(fs::metadata(&path).expect("a file").ino(), inode);
    assert_eq!(names(&format.folder), before);
}

/// A path that has room for a file's name, but not for that of the new one.
#[test]
fn a_folder_that_takes_no_new_file_is_said() {
    let format = format_in("format-long-path");
    let mut folder = PathBuf::new();
    let whole = |folder: &Path| format.folder.join(folder).as_os_str().len();
    while whole(&folder) + 200 < 4_090 {
        folder.push("f".repeat(150));
    }
    folder.push("f".repeat(4_089 - whole(&folder)));
    assert_eq!(whole(&folder), 4_090);
    // The path is too long for one step.
    let made = Command::new("mkdir")
        .current_dir(&format.folder)
        .arg("-p")
        .arg(&folder)
        .status();
    assert!(made.expect("mkdir runs").success());
    let table = folder.join("t");
    format.write(word(&table), TABLE);
    let output = format.run(&["-w", word(&table)]);
    let complaint = format!("eremothyn format: {}: File name too long\n", word(&table));
    assert_eq!(all(&output), is("", &complaint, 2));
    assert_eq!(format.read(word(&table)), TABLE.as_bytes());
    assert_eq!(names(&format.folder.join(&folder)), ["t"]);
}

fn is_root() -> bool {
    unsafe extern "C" {
        safe fn geteuid() -> u32;
    }
    geteuid() == 0
}

/// A folder that nobody may search but its owner can't be used by another user: one where all may.
struct Open {
    folder: PathBuf,
    program: PathBuf,
}

impl Open {
    fn new(format: &Subcommand, name: &str) -> Open {
        let folder = std::env::temp_dir().join(format!("{name}-{}", std::process::id()));
        fs::create_dir_all(folder.join("tables")).expect("a folder");
        let program = folder.join("program");
        format.copy_program(&program);
        set_mode(&folder, 0o755);
        set_mode(&program, 0o755);
        Open { folder, program }
    }

    fn table(&self) -> PathBuf {
        self.folder.join("tables/table")
    }

    /// Runs the command as someone who isn't root.
    fn run(&self, arguments: &[&str]) -> Output {
        let mut command = Command::new(&self.program);
        command
            .current_dir(&self.folder)
            .arg("format")
            .args(arguments)
            .stdin(Stdio::null());
        if is_root() {
            command.uid(NOBODY).gid(NOBODY);
        }
        command.output().expect("the command runs")
    }
}

impl Drop for Open {
    fn drop(&mut self) {
        let _ = fs::set_permissions(self.folder.join("tables"), Permissions::from_mode(0o755));
        let _ = fs::remove_dir_all(&self.folder);
    }
}

#[test]
fn what_may_not_be_written_stays() {
    let format = format_in("format-forbidden");
    let open = Open::new(&format, "eremothyn-format-forbidden");
    let tables = open.folder.join("tables");
    let rows = [
        // mode of the folder, mode of the file, and what is said
        (0o555, 0o666, "Permission denied"),
        (0o777, 0o444, "Permission denied"),
        (0o777, 0o000, "Permission denied"),
    ];
    for (of_folder, of_file, why) in rows {
        fs::write(open.table(), TABLE).expect("the table is written");
        set_mode(&open.table(), of_file);
        set_mode(&tables, of_folder);
        let output = open.run(&["-w", "tables/table"]);
        let complaint = format!("eremothyn format: tables/table: {why}\n");
        assert_eq!(
            all(&output),
            is("", &complaint, 2),
            "{of_folder:o} {of_file:o}"
        );
        set_mode(&tables, 0o755);
        set_mode(&open.table(), 0o644);
        assert_eq!(fs::read(open.table()).expect("a table"), TABLE.as_bytes());
        assert_eq!(names(&tables), ["table"]);
        fs::remove_file(open.table()).expect("the table goes");
    }
}

/// Who can't keep a file's owner doesn't rewrite it.
#[test]
fn another_s_file_stays() {
    if !is_root() {
        return;
    }
    let format = format_in("format-another");
    let open = Open::new(&format, "eremothyn-format-another");
    let tables = open.folder.join("tables");
    fs::write(open.table(), TABLE).expect("the table is written");
    set_mode(&open.table(), 0o666);
    set_mode(&tables, 0o777);
    let output = open.run(&["-w", "tables/table"]);
    let complaint = "eremothyn format: tables/table: Operation not permitted\n";
    assert_eq!(all(&output), is("", complaint, 2));
    assert_eq!(fs::read(open.table()).expect("a table"), TABLE.as_bytes());
    assert_eq!(names(&tables), ["table"]);
    // Its own it does.
    chown(open.table(), Some(NOBODY), Some(NOBODY)).expect("the owner is set");
    assert_eq!(all(&open.run(&["-w", "tables/table"])), is("", "", 0));
    assert_eq!(fs::read(open.table()).expect("a table"), TEXT.as_bytes());
}
