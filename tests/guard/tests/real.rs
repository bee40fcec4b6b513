//! The guard is real. Each row is done by this test in a process of its own, which must end as the row says.

use guard::Guarded;
use std::env;
use std::hint::black_box;
use std::os::unix::process::ExitStatusExt;
use std::process::{Command, Output};

const SIGSEGV: i32 = 11;

/// Names the row that the process is to do.
const ROW: &str = "EREMOTHYN_GUARD_ROW";

const TABLE: &[u8] = b"@daily a%b\n";

/// Long enough to start at a page, whatever size pages have.
const PAGES: &[u8] = &[b'\n'; 1 << 16];

fn read(bytes: &[u8], at: isize) {
    // SAFETY: none. Where it isn't one of the bytes, the process is to die.
    let _ = black_box(unsafe { bytes.as_ptr().offset(at).read_volatile() });
}

fn write(bytes: &[u8], at: isize) {
    // SAFETY: none, as above.
    unsafe { bytes.as_ptr().cast_mut().offset(at).write_volatile(0) };
}

fn lend(length: usize, call: fn(&mut [u8])) {
    Guarded::lend(&mut vec![7; length], call);
}

/// What a process does, and the signal by which it dies.
type Row = (&'static str, fn(), Option<i32>);

const ROWS: [Row; 14] = [
    (
        "reads a table's first byte and its last",
        || {
            let table = Guarded::read_only(TABLE);
            read(&table, 0);
            read(&table, TABLE.len() as isize - 1);
        },
        None,
    ),
    (
        "writes a buffer's first byte and its last",
        || {
            lend(100, |lent| {
                write(lent, 0);
                write(lent, 99);
            })
        },
        None,
    ),
    (
        "reads a byte past a table",
        || read(&Guarded::read_only(TABLE), TABLE.len() as isize),
        Some(SIGSEGV),
    ),
    (
        "reads a page past a table",
        || read(&Guarded::read_only(TABLE), TABLE.len() as isize + 4_095),
        Some(SIGSEGV),
    ),
    (
        "reads a byte before a table that starts at a page",
        || read(&Guarded::read_only(PAGES), -1),
        Some(SIGSEGV),
    ),
    (
        "reads from an empty table",
        || read(&Guarded::read_only(b""), 0),
        Some(SIGSEGV),
    ),
    (
        "writes to a table's first byte",
        || write(&Guarded::read_only(TABLE), 0),
        Some(SIGSEGV),
    ),
    (
        "writes to a table's last byte",
        || write(&Guarded::read_only(TABLE), TABLE.len() as isize - 1),
        Some(SIGSEGV),
    ),
    (
        "writes in front of a table",
        || write(&Guarded::read_only(TABLE), -1),
        Some(SIGSEGV),
    ),
    (
        "reads a byte past a buffer",
        || lend(100, |lent| read(lent, 100)),
        Some(SIGSEGV),
    ),
    (
        "writes a byte past a buffer",
        || lend(100, |lent| write(lent, 100)),
        Some(SIGSEGV),
    ),
    (
        "writes to an empty buffer",
        || lend(0, |lent| write(lent, 0)),
        Some(SIGSEGV),
    ),
    (
        "writes before a buffer that starts at a page",
        || lend(1 << 16, |lent| write(lent, -1)),
        Some(SIGSEGV),
    ),
    (
        "writes past a buffer whose pages were a table's",
        || {
            drop(Guarded::read_only(TABLE));
            lend(TABLE.len(), |lent| write(lent, 0));
            lend(TABLE.len(), |lent| write(lent, lent.len() as isize));
        },
        Some(SIGSEGV),
    ),
];

/// Runs the test below once more, for one row.
fn process(row: usize) -> Output {
    let program = env::current_exe().expect("this program");
    Command::new(program)
        .args([
            "--exact",
            "--nocapture",
            "a_call_that_leaves_its_bytes_dies",
        ])
        .env(ROW, row.to_string())
        .current_dir(env!("CARGO_TARGET_TMPDIR"))
        .output()
        .expect("the process runs")
}

#[test]
fn a_call_that_leaves_its_bytes_dies() {
    if let Ok(row) = env::var(ROW) {
        let row: usize = row.parse().expect("a row's number");
        return ROWS[row].1();
    }
    for (row, (does, _, signal)) in ROWS.iter().enumerate() {
        let output = process(row);
        assert_eq!(output.status.signal(), *signal, "{does}: {output:?}");
        assert_eq!(output.status.success(), signal.is_none(), "{does}");
    }
}

#[test]
fn the_last_words_are_the_table() {
    let reads_past = |row: &Row| row.0 == "reads a byte past a table";
    let row = ROWS.iter().position(reads_past).expect("a row");
    let told = String::from_utf8(process(row).stderr).expect("text");
    assert!(told.contains(r#"this table: "@daily a%b\n""#), "{told}");
}

/// A byte in front of a buffer, changed without a guard page being touched.
fn write_in_front(at: isize) {
    Guarded::lend(&mut [7; 100], |lent| write(lent, at));
}

#[test]
#[should_panic(expected = "wrote in front of 100 lent bytes")]
fn a_byte_written_just_before_a_buffer_is_seen() {
    write_in_front(-1);
}

#[test]
#[should_panic(expected = "wrote in front of 100 lent bytes")]
fn a_byte_written_far_before_a_buffer_is_seen() {
    write_in_front(-3_000);
}

#[test]
fn what_is_written_comes_back() {
    for length in [1, 2, 100, 4_095, 4_096, 4_097, 20_000] {
        let mut bytes = vec![7; length];
        let answer = Guarded::lend(&mut bytes, |lent| {
            assert_eq!(lent, vec![7; length]);
            lent[0] = 1;
            lent[length - 1] = 2;
            lent.as_ptr_range().end.addr()
        });
        assert_eq!(answer % 4_096, 0);
        assert_eq!(bytes[length - 1], 2);
        assert!(length == 1 || bytes[0] == 1);
        assert!(bytes.len() < 3 || bytes[1..length - 1].iter().all(|&byte| byte == 7));
    }
}
