//! `crontab_firings`: the whole list of a user table, against the reference program, and what it refuses.

use c::{all, compile, is, make, root, scratch, word};
use reference::calendar::{minute_of, LAST_MINUTE};
use reference::random::Random;
use reference::schedule::samples::start;
use reference::table::firings::printed;
use reference::table::{samples, Kind, ENTRIES, TABLE_BYTES};
use std::ffi::OsStr;
use std::fs;
use std::os::unix::ffi::OsStrExt;
use std::path::PathBuf;
use std::process::{Command, Output};

const REFUSED_0: &str = "refused 0\n";

/// The program and a folder that it runs in.
struct Lister {
    program: PathBuf,
    folder: PathBuf,
}

impl Lister {
    fn new(folder: &str) -> Lister {
        let _ = make(&["target/bin/crontab_firings"]);
        Lister {
            program: root().join("target/bin/crontab_firings"),
            folder: scratch(folder),
        }
    }

    fn write(&self, name: &str, table: impl AsRef<[u8]>) {
        fs::write(self.folder.join(name), table).expect("the table is written");
    }

    fn run(&self, arguments: &[&OsStr]) -> Output {
        Command::new(&self.program)
            .current_dir(&self.folder)
            .args(arguments)
            .output()
            .expect("the program runs")
    }

    /// Lists a file, and holds what is printed to the reference program's text. Answers that.
    fn list(&self, name: impl AsRef<OsStr>, a: impl AsRef<[u8]>, b: impl AsRef<[u8]>) -> String {
        let file = fs::read(self.folder.join(name.as_ref())).ok();
        self.list_as(file, name.as_ref(), a.as_ref(), b.as_ref())
    }

    /// The same of a name that stands for these bytes, or for no file that can be read.
    fn list_as(&self, file: Option<Vec<u8>>, name: &OsStr, a: &[u8], b: &[u8]) -> String {
        let expected = printed(file.as_deref(), a, b);
        let output = self.run(&[name, OsStr::from_bytes(a), OsStr::from_bytes(b)]);
        let (found, complaint, status) = all(&output);
        assert!(
            found == expected && complaint.is_empty() && status == Some(0),
            "{name:?} {} {}: {status:?} {complaint:?} {:?}, not {:?}",
            a.escape_ascii(),
            b.escape_ascii(),
            start_of(&found),
            start_of(&expected)
        );
        expected
    }

    fn span(&self, name: impl AsRef<OsStr>, [a, b]: [u64; 2]) -> String {
        self.list(name, a.to_string(), b.to_string())
    }
}

/// As much of a long text as a message shows.
fn start_of(text: &str) -> String {
    text.chars().take(500).collect()
}

/// The start of a day.
fn day(year: u64, month: u64, day: u64) -> u64 {
    minute_of(year, month, day, 0, 0).expect("a date")
}

#[test]
fn the_examples() {
    let lister = Lister::new("firings-examples");
    let evening = day(2026, 11, 15) + 21 * 60;
    for (name, lines) in [
        ("observatory.crontab", true),
        ("two_sites.crontab", true),
        ("system.crontab", true),
        ("broken.crontab", false),
    ] {
        let path = root().join("examples").join(name);
        for span in [
            [evening, evening + 40],
            [day(2026, 11, 15), day(2026, 11, 17)],
            [0, 10_000],
            [LAST_MINUTE - 3_000, LAST_MINUTE],
            [evening, evening],
            [evening, 0],
        ] {
            let text = lister.span(&path, span);
            let refused = text.starts_with("refused ");
            assert_eq!(!refused, lines, "{text}");
        }
    }
    // A whole winter of 151 days.
    let observatory = root().join("examples/observatory.crontab");
    let winter = [day(2026, 11, 1), day(2027, 4, 1)];
    assert!(lister.span(observatory, winter).lines().count() > 1_000_000);
}

/// What is stored beside the program, for the gate, is what the reference program prints.
#[test]
fn the_stored_output_is_the_second_program_s() {
    let stored = root().join("crates/crontab_firings");
    let read = |name: &str| fs::read_to_string(stored.join(name)).expect("a stored file");
    let arguments = read("args");
    let [name, a, b] = arguments.lines().collect::<Vec<_>>()[..] else {
        panic!("three arguments: {arguments}");
    };
    let file = fs::read(stored.join("data").join(name)).ok();
    let text = printed(file.as_deref(), a.as_bytes(), b.as_bytes());
    // More lines than a piece has.
    assert!(text.lines().count() > 4_096, "{text}");
    assert_eq!(read("stdout"), text);
}

#[test]
fn random_tables() {
    let lister = Lister::new("firings-random");
    let mut random = Random::seeded();
    let (mut lists, mut refused) = (0, 0);
    for _ in 0..400 {
        let lines = random.below(6);
        let mut table = samples::table(&mut random, Kind::User, lines);
        if random.below(6) == 0 {
            table = samples::mutated(&mut random, &table);
        }
        lister.write("table", &table);
        let a = start(&mut random);
        let text = lister.span("table", [a, a.saturating_add(random.below(3_000))]);
        match text.starts_with("refused ") {
            true => refused += 1,
            false => lists += usize::from(!text.is_empty()),
        }
    }
    assert!(
        lists > 50 && refused > 10,
        "{lists} lists, {refused} refused"
    );
}

/// Lists of many pieces, and minutes at which all entries fire.
#[test]
fn long_lists() {
    let lister = Lister::new("firings-long");
    for (entry, entries, minutes) in [
        ("* * * * * a\n", ENTRIES, 100),
        ("* * * * * a\n", ENTRIES - 1, 17),
        ("*/10 * * * * a\n", ENTRIES, 1_000),
        ("* * * * * a\n", 1, 50_000),
        ("* * * * * a\n", 3, 10_000),
        ("* * * * * a\n", 64, 1_000),
        ("0 0 29 2 * a\n", 2, LAST_MINUTE),
    ] {
        lister.write("table", entry.repeat(entries));
        for a in [0, LAST_MINUTE - minutes] {
            let text = lister.span("table", [a, a + minutes]);
            assert!(text.lines().count() > 1_000, "{entry}");
        }
    }
}

/// Lists that just fill some pieces, whatever these have of places up to 8,192.
#[test]
fn lists_about_a_power_of_two() {
    let lister = Lister::new("firings-powers");
    for entries in [1, 2, 7] {
        lister.write("table", "* * * * * a\n".repeat(entries));
        for power in 8..=13 {
            let minutes = (1 << power) / entries as u64;
            for last in minutes - 2..=minutes + 2 {
                let text = lister.span("table", [5, 5 + last]);
                assert_eq!(text.lines().count() as u64, last * entries as u64);
            }
        }
    }
}

#[test]
fn spans() {
    let lister = Lister::new("firings-spans");
    lister.write(
        "table",
        "* * * * * a\n@reboot b\n*/2 * * * * c\n0 0 30 2 * d\n",
    );
    assert_eq!(lister.span("table", [3, 5]), "4 0\n4 2\n5 0\n");
    assert_eq!(lister.span("table", [5, 5]), "");
    assert_eq!(lister.span("table", [5, 3]), "");
    assert_eq!(lister.span("table", [LAST_MINUTE, LAST_MINUTE]), "");
    assert_eq!(
        lister.span("table", [LAST_MINUTE - 1, LAST_MINUTE]),
        format!("{LAST_MINUTE} 0\n")
    );
    for off in [LAST_MINUTE + 1, 1 << 32, u64::MAX] {
        for span in [[off, 0], [0, off], [off, off]] {
            assert_eq!(lister.span("table", span), "refused 14\n");
        }
    }
    lister.write("boot", "@reboot a\n");
    assert_eq!(lister.span("boot", [0, LAST_MINUTE]), "");
    lister.write("empty", "");
    assert_eq!(lister.span("empty", [0, LAST_MINUTE]), "");
}

/// Each as a and as b: a good number is read, any other is refused with 0, before the file and before the table.
#[test]
fn arguments() {
    let lister = Lister::new("firings-arguments");
    lister.write("table", "0 0 1 1 * a\n");
    lister.write("bad", "60 * * * * a\n");
    let zeros = |count: usize, rest: &str| "0".repeat(count) + rest;
    let good = [
        "0".to_string(),
        "007".to_string(),
        zeros(19, "3"),
        zeros(100, "18446744073709551615"),
        zeros(100_000, "5"),
        u64::MAX.to_string(),
        LAST_MINUTE.to_string(),
    ];
    for text in &good {
        assert_ne!(lister.list("table", text, "9"), REFUSED_0, "{text}");
        assert_eq!(lister.list("bad", text, "9"), "refused 6\n");
        assert_ne!(lister.list("table", "9", text), REFUSED_0, "{text}");
    }
    let bad: [&[u8]; 24] = [
        b"",
        b"+1",
        b"-1",
        b"-0",
        b"1x",
        b"x",
        b" 1",
        b"1 ",
        b"1\n",
        b"\t1",
        b"0x10",
        b"1e3",
        b"1_000",
        b"1,000",
        b"1.0",
        b"/",
        b":",
        b"\xff",
        b"\xd9\xa1",
        b"18446744073709551616",
        b"18446744073709551620",
        b"99999999999999999999",
        b"184467440737095516150",
        b"000000000018446744073709551616",
    ];
    for text in bad {
        for name in ["table", "bad", "missing"] {
            assert_eq!(lister.list(name, text, "9"), REFUSED_0);
            assert_eq!(lister.list(name, "9", text), REFUSED_0);
            assert_eq!(lister.list(name, text, text), REFUSED_0);
        }
    }
    let counts: [&[&str]; 6] = [
        &[],
        &["table"],
        &["table", "0"],
        &["table", "0", "9", "9"],
        &["table", "0", "9", ""],
        &["--help"],
    ];
    for arguments in counts {
        let arguments: Vec<&OsStr> = arguments.iter().map(OsStr::new).collect();
        let output = lister.run(&arguments);
        assert_eq!(all(&output), is(REFUSED_0, "", 0), "{arguments:?}");
    }
}

#[test]
fn files() {
    let lister = Lister::new("firings-files");
    lister.write("table", "* * * * * a\n");
    fs::create_dir(lister.folder.join("folder")).expect("a folder");
    for name in ["missing", "", "folder", ".", "table/", "missing/table", "-"] {
        assert_eq!(lister.list(name, "0", "2"), REFUSED_0, "{name}");
        // Before a minute off the calendar.
        assert_eq!(lister.list(name, u64::MAX.to_string(), "2"), REFUSED_0);
    }
    for name in ["-", "--help", " a b\n", "ä", "0"] {
        let path = lister.folder.join(name);
        fs::write(&path, "* * * * * a\n").expect("the table is written");
        assert_eq!(lister.list(name, "0", "2"), "1 0\n2 0\n", "{name:?}");
        fs::remove_file(path).expect("the table is removed");
    }
    // A name that is no text names no file that can be read.
    let name = OsStr::from_bytes(b"\xff\x01");
    fs::write(lister.folder.join(name), "* * * * * a\n").expect("the table is written");
    assert_eq!(lister.list_as(None, name, b"0", b"2"), REFUSED_0);
    // As long a name as the system takes, and a longer one.
    for (parts, readable) in [(2_000, true), (2_045, true), (2_046, false), (5_000, false)] {
        let name = "./".repeat(parts) + "table";
        let file = readable.then(|| b"* * * * * a\n".to_vec());
        let _ = lister.list_as(file, OsStr::new(&name), b"0", b"1");
    }
}

/// A read that fails after the first line: a table cut there would be a good one, so it must not be listed.
#[test]
fn a_failed_read_is_refused() {
    let lister = Lister::new("firings-failed-read");
    let first = "* * * * * a\n";
    lister.write("table", first.to_string() + "*/2 * * * * b\n");
    let source = lister.folder.join("read.c");
    fs::write(&source, FAILING_READ).expect("the source is written");
    let shim = lister.folder.join("read.so");
    compile(
        "cc",
        "-std=c11",
        &["-shared", "-fPIC", "-o", word(&shim), word(&source)],
    );
    for (failing, text) in [
        ("0", "1 0\n2 0\n2 1\n"),
        ("1", REFUSED_0),
        ("2", REFUSED_0),
        ("3", REFUSED_0),
    ] {
        let output = Command::new(&lister.program)
            .current_dir(&lister.folder)
            .env("LD_PRELOAD", &shim)
            .env("FIRST_BYTES", first.len().to_string())
            .env("FAILING_READ", failing)
            .args(["table", "0", "2"])
            .output()
            .expect("the program runs");
        assert_eq!(all(&output), is(text, "", 0), "read {failing} fails");
    }
}

/// Reads at most `FIRST_BYTES` bytes at a time, and fails at the read of that number, counted from 1, once.
const FAILING_READ: &str = r#"
#define _GNU_SOURCE
#include <dlfcn.h>
#include <errno.h>
#include <stdlib.h>
#include <sys/types.h>

ssize_t read(int fd, void *bytes, size_t size)
{
    static int number;
    ssize_t (*real)(int, void *, size_t);
    *(void **)&real = dlsym(RTLD_NEXT, "read");
    size_t most = strtoul(getenv("FIRST_BYTES"), NULL, 10);
    if (++number == atoi(getenv("FAILING_READ"))) {
        errno = EIO;
        return -1;
    }
    return real(fd, bytes, size < most ? size : most);
}
"#;

/// A file may have as many bytes as a table; an endless one is refused, too, and not before an argument.
#[test]
fn large_files() {
    let lister = Lister::new("firings-large");
    let entry = "* * * * * a\n";
    let filled = |length: usize| {
        let rest = length - entry.len();
        entry.to_string() + &"#\n".repeat(rest / 2) + &"\n".repeat(rest % 2)
    };
    for (length, text) in [
        (TABLE_BYTES - 1, "1 0\n"),
        (TABLE_BYTES, "1 0\n"),
        (TABLE_BYTES + 1, "refused 1\n"),
        (TABLE_BYTES + 2, "refused 1\n"),
        (10 * TABLE_BYTES, "refused 1\n"),
    ] {
        lister.write("table", filled(length));
        assert_eq!(lister.list("table", "0", "1"), text, "{length}");
    }
    assert_eq!(lister.list("table", "x", "1"), REFUSED_0);
    assert_eq!(
        lister.list("table", u64::MAX.to_string(), "1"),
        "refused 1\n"
    );
    for (name, text) in [("/dev/null", ""), ("/dev/zero", "refused 1\n")] {
        let arguments = [name, "0", "9"].map(OsStr::new);
        assert_eq!(all(&lister.run(&arguments)), is(text, "", 0), "{name}");
    }
}

/// A table's refusal comes before 14, and after 0.
#[test]
fn bad_tables() {
    let lister = Lister::new("firings-bad");
    let rows: [(&[u8], u64); 8] = [
        (b"#\0\n", 3),
        (b"5 5\n", 4),
        (b"60 * * * * a\n", 6),
        (b"* * * * * a\n@noon b\n", 10),
        (b"a\n", 11),
        (b"CRON_TZ=x\n", 25),
        (b"* * * * * a", 26),
        (b"* * * * * a\r\n", 27),
    ];
    for (table, number) in rows {
        lister.write("table", table);
        let refused = format!("refused {number}\n");
        for span in [[0, 9], [9, 0], [u64::MAX, 0], [0, u64::MAX]] {
            assert_eq!(lister.span("table", span), refused);
        }
        assert_eq!(lister.list("table", "0", "9x"), REFUSED_0);
    }
}
