//! Tables at the limits and one past them.

use crate::every::every_call;
use differential::samples::of_kind;
use differential::table::Compared;
use reference::random::Random;
use reference::table::{Kind, ENTRIES, LINE_BYTES, TABLE_BYTES};

/// A table, and number, line and column of its refusal, which may be 26 where it has no other.
type Row = (Vec<u8>, Option<[u64; 3]>);

const TOO_LONG: Option<[u64; 3]> = Some([1, 0, 0]);

/// How entries, settings, comments and blank lines start, and a byte that they go on with. `~` is a system table's user.
const STARTS: [(&str, u8); 10] = [
    ("* * * * * ~", b'a'),
    ("* * * * * ~a", b'%'),
    ("1,2 3-4 */5 jan mon ~%", b'a'),
    ("@reboot ~", b'a'),
    ("@daily ~", b'\\'),
    ("a=", b'a'),
    ("a=b", b' '),
    ("'a'=", b'a'),
    ("#", b'a'),
    ("", b' '),
];

/// A line that is filled up to a length.
fn line(kind: Kind, (start, byte): (&str, u8), length: usize) -> Vec<u8> {
    let mut line = of_kind(start, kind).into_bytes();
    line.resize(length, byte);
    line
}

/// A text again and again, so many bytes in all.
fn cycled(text: &[u8], total: usize) -> Vec<u8> {
    text.iter().copied().cycle().take(total).collect()
}

/// Lines about as long as may be, alone and among others.
fn long_lines(kind: Kind) -> Vec<Row> {
    let mut rows = Vec::new();
    let mut add = |line: Vec<u8>| {
        let over = line.len() > LINE_BYTES;
        for (before, end, number) in [("", "", 1), ("", "\n", 1), ("#\n\n", "\n#\n", 3)] {
            let table = [before.as_bytes(), &line, end.as_bytes()].concat();
            rows.push((table, over.then_some([2, number, 1_001])));
        }
    };
    for length in LINE_BYTES - 1..=LINE_BYTES + 1 {
        for start in STARTS {
            add(line(kind, start, length));
        }
        // A name up to the last byte.
        add([&line(kind, ("", b'n'), length - 1)[..], b"="].concat());
    }
    rows
}

/// Tables about as long as may be.
fn long_tables(kind: Kind) -> Vec<Row> {
    let mut rows = Vec::new();
    for start in STARTS {
        let lines = |length: usize, total: usize| {
            let line = [&line(kind, start, length)[..], b"\n"].concat();
            cycled(&line, total)
        };
        // 49 whole lines and one of 103 bytes
        rows.push((lines(LINE_BYTES, TABLE_BYTES), None));
        rows.push((lines(LINE_BYTES, TABLE_BYTES + 1), TOO_LONG));
        // 512 lines of 96 bytes with their newlines
        rows.push((lines(95, TABLE_BYTES - 1), None));
        rows.push((lines(95, TABLE_BYTES), None));
        rows.push((lines(95, TABLE_BYTES + 1), TOO_LONG));
        // In 16 bits this is the length of one such line.
        rows.push((lines(95, (1 << 16) + 95), TOO_LONG));
        // A table as it was the longest once, and a line more.
        rows.push((lines(127, 16_384), None));
        rows.push((lines(127, 16_384 + 128), None));
    }
    let texts: [(&[u8], Option<[u64; 3]>); 7] = [
        (b"\n", None),
        (b"# a comment\n", None),
        (b"A=b\n", None),
        (b"\0\n", Some([3, 1, 1])),
        (b"60\n", Some([6, 1, 1])),
        (b" ", Some([2, 1, 1_001])),
        (b"\0", Some([2, 1, 1_001])),
    ];
    for (text, fault) in texts {
        rows.push((cycled(text, TABLE_BYTES - 1), fault));
        rows.push((cycled(text, TABLE_BYTES), fault));
        for over in [TABLE_BYTES + 1, 2 * TABLE_BYTES, 100_000] {
            rows.push((cycled(text, over), TOO_LONG));
        }
    }
    rows
}

/// Tables with about as many entries as may be.
fn many_entries(kind: Kind) -> Vec<Row> {
    let mut rows = Vec::new();
    for start in ["* * * * *", "@reboot", "@daily", "0-59/7 0 29 2 *"] {
        let entry = of_kind(&format!("{start} ~a%b\n"), kind);
        let entries = |count: usize| entry.repeat(count).into_bytes();
        rows.push((entries(128), None));
        rows.push((entries(129), None));
        rows.push((entries(ENTRIES), None));
        rows.push((entries(ENTRIES + 1), Some([12, ENTRIES as u64 + 1, 1])));
        rows.push(([&entries(ENTRIES)[..], b"a=b"].concat(), None));
    }
    rows
}

/// 26, of a table that has no other fault.
fn cut(table: &[u8]) -> Option<[u64; 3]> {
    let newlines = table.iter().filter(|&&byte| byte == b'\n').count() as u64;
    let last = table.rsplit(|&byte| byte == b'\n').next()?.len() as u64;
    (last > 0).then_some([26, newlines + 1, last + 1])
}

fn rows(kind: Kind) -> Vec<Row> {
    let rows = [long_lines(kind), long_tables(kind), many_entries(kind)].concat();
    let judged = |(table, fault): Row| {
        let fault = fault.or_else(|| cut(&table));
        (table, fault)
    };
    rows.into_iter().map(judged).collect()
}

#[test]
fn tables_at_the_limits() {
    let mut random = Random::seeded();
    for kind in Kind::BOTH {
        for (table, fault) in rows(kind) {
            let shown = table[..table.len().min(50)].escape_ascii();
            let found = Compared::under(&table, kind).fault();
            assert_eq!(found, fault, "{kind:?} {shown}, {} bytes", table.len());
            every_call(&mut random, &table, kind.into());
        }
    }
}

#[test]
fn tables_at_the_limits_with_one_byte_changed() {
    let mut random = Random::seeded();
    for kind in Kind::BOTH {
        for (mut table, _) in rows(kind) {
            for _ in 0..10 {
                let at = random.below(table.len() as u64) as usize;
                let byte = random.pick(b"\0\x01\r\x7f\n \t%\\*@#='\"1a\xff:/-");
                let before = std::mem::replace(&mut table[at], byte);
                Compared::under(&table, kind).everything(&mut random);
                table[at] = before;
            }
        }
    }
}
