//! Tables there and back. Those of the normal form's tests, known ones and full ones among them, go this way there.

use differential::records;
use differential::table::Compared;
use reference::random::Random;
use reference::table::normal::{meaning, samples};
use reference::table::TABLE_BYTES;

/// Tables that say the same in other words have the same records, and each line is compiled by itself.
#[test]
fn equal_meanings_compile_to_equal_bytes() {
    let mut random = Random::seeded();
    for _ in 0..10_000 {
        let lines = random.below(7);
        let table = samples::table(&mut random, lines);
        let records = Compared::of(&table).there_and_back();
        let items = meaning(&table).expect("a good table");
        let other = samples::respelled(&mut random, &items);
        let shown = other.escape_ascii();
        assert_eq!(Compared::of(&other).there_and_back(), records, "{shown}");
        let lines = table.split_inclusive(|&byte| byte == b'\n');
        let apart = lines.map(|line| Compared::of(line).there_and_back());
        assert_eq!(apart.collect::<Vec<_>>().concat(), records, "{shown}");
    }
}

/// Records of one table behind those of another are those of the one behind the other.
#[test]
fn records_one_behind_the_other() {
    let mut random = Random::seeded();
    for _ in 0..3_000 {
        let tables = [(); 2].map(|_| samples::table(&mut random, 3));
        let both = Compared::of(&tables.concat()).there_and_back();
        let apart = tables.map(|table| Compared::of(&table).there_and_back());
        assert_eq!(apart.concat(), both);
    }
}

/// The most bytes that a compiled table can have.
#[test]
fn the_longest_records() {
    let settings = "A=\n".repeat(TABLE_BYTES / 3);
    let records = Compared::of(settings.as_bytes()).there_and_back();
    assert_eq!(records.len(), 114_688);
    let newlines = "\n".repeat(TABLE_BYTES);
    assert_eq!(Compared::of(newlines.as_bytes()).there_and_back(), b"");
    assert_eq!(records::Compared::of(b"").text, Ok(Vec::new()));
}

/// Whatever kind a table has, it is read as a user's.
#[test]
fn there_is_no_kind() {
    let table = b"@daily root a\n* * * * * b\n";
    let records = Compared::of(table).there_and_back();
    for kind in [1, 2, 1 << 32, u64::MAX] {
        assert_eq!(Compared::under(table, kind).there_and_back(), records);
    }
}
