//! What is the same in both dialects: words, rising ranges, normal texts, and all that comes after reading.

use differential::queue::{Case, Compared as Line};
use differential::samples::{busy_table, numbers};
use differential::table::Compared;
use eremothyn::{Numbers, Table};
use guard::filled;
use reference::random::Random;
use reference::schedule::samples::start;
use reference::table::samples::{self, WORDS};
use reference::table::{Dialect, Kind, Rules, ENTRIES};

/// The normal text of a table, as the library writes it.
fn written(table: &[u8], dialect: Dialect) -> Vec<u8> {
    let mut text = filled(4_096);
    let length = Table::of(table).under(dialect).normal_form(&mut text[..]);
    text.truncate(length.expect("a short table") as usize);
    text
}

/// The records of a table, as the library writes them.
fn compiled(table: &[u8], dialect: Dialect) -> Vec<u8> {
    let mut records = filled(8_192);
    let length = Table::of(table).under(dialect).compile(&mut records[..]);
    records.truncate(length.expect("a short table") as usize);
    records
}

/// The text of a table of either dialect is its own text in both, and has the table's records in both.
#[test]
fn a_normal_text_reads_the_same_in_either_dialect() {
    let mut random = Random::seeded();
    for dialect in Dialect::BOTH.repeat(6_000) {
        let lines = random.below(5);
        let table = samples::table(&mut random, dialect, lines);
        Compared::under(&table, dialect).there_and_back();
        let text = written(&table, dialect);
        let records = compiled(&table, dialect);
        for reader in Dialect::BOTH {
            let shown = table.escape_ascii();
            assert_eq!(
                written(&text, reader),
                text,
                "{dialect:?} {reader:?} {shown}"
            );
            assert_eq!(
                compiled(&text, reader),
                records,
                "{dialect:?} {reader:?} {shown}"
            );
            Compared::under(&text, reader).normal_form_into_all();
        }
    }
}

/// A table of the second dialect fires when its normal text does, read in the first.
#[test]
fn a_table_fires_as_its_normal_text_does() {
    let mut random = Random::seeded();
    for _ in 0..3_000 {
        let table = busy_table(&mut random, Dialect::Wrapping, 4);
        let text = written(&table, Dialect::Wrapping);
        let wrapping = Compared::under(&table, Dialect::Wrapping);
        let rising = Compared::of(&text);
        assert_eq!(wrapping.check(), rising.check());
        for entry in 0..4 {
            let minute = start(&mut random);
            assert_eq!(wrapping.next(entry, minute), rising.next(entry, minute));
            assert_eq!(wrapping.due(entry, minute), rising.due(entry, minute));
        }
    }
}

/// The line goes through the same bytes with a table of the second dialect and with its normal text.
#[test]
fn the_line_goes_on_as_with_its_normal_text() {
    let mut random = Random::seeded();
    for _ in 0..300 {
        let entries = random.below(20);
        let table = busy_table(&mut random, Dialect::Wrapping, entries);
        let text = written(&table, Dialect::Wrapping);
        let cases = [
            Case::under(&table, Dialect::Wrapping),
            Case::under(&text, Dialect::Rising),
        ];
        let length = cases[0].enough();
        let mut lines = cases.each_ref().map(|case| Line::fresh(case, length));
        let mut minute = random.below(1_000_000);
        for _ in 0..30 {
            minute += random.below(200);
            for (line, case) in lines.iter_mut().zip(&cases) {
                let _ = line.tick(case, length, minute);
                let _ = line.pop(case, length);
            }
            assert_eq!(lines[0].room, lines[1].room);
        }
    }
}

/// Entries in both dialects alike: words, and fields that have no reversed range, no `sun` as an upper end and no 7.
#[test]
fn words_and_rising_fields_are_the_same() {
    let fields = [
        "* * * * *",
        "*/7 */5 */3 */2 */6",
        "0-59/7 22-23 30-31 nov-dec 0-6",
        "5 4 3 2 1",
        "0,30 8-18/3 1,15 jan,jul mon-sat",
        "59 23 31 dec sat",
    ];
    for time in fields.into_iter().chain(WORDS) {
        let line = format!("{time} u a\n");
        let [rising, wrapping] = Dialect::BOTH.map(|dialect| compiled(line.as_bytes(), dialect));
        assert_eq!(rising, wrapping, "{time}");
        for rules in Rules::ALL {
            Compared::under(line.as_bytes(), rules).everything(&mut Random::new(4));
        }
    }
}

/// Settings, comments, users and commands don't know of dialects: what differs is fields alone.
#[test]
fn any_number_but_0_is_the_second_dialect() {
    let table = b"A=b\n0 22-3 * * fri-sun u a%b\n@reboot u c\n";
    let first = Some([7, 2, 3]);
    for kind in [0, 1, 2, u64::MAX] {
        let rising = Numbers { kind, dialect: 0 };
        assert_eq!(Compared::under(table, rising).fault(), first);
        for dialect in [1, 2, 255, 256, 1 << 16, 1 << 32, 1 << 63, u64::MAX] {
            let compared = Compared::under(table, Numbers { kind, dialect });
            assert_eq!(compared.fault(), None, "{kind} {dialect}");
            compared.everything(&mut Random::new(4));
            let case = Case::under(table, Numbers { kind, dialect });
            let mut line = Line::fresh(&case, case.enough());
            let _ = line.tick(&case, case.enough(), 1_320);
            line.assert_waiting(&case);
        }
    }
}

/// As many entries as may be, with ranges over every field's join, and one more.
#[test]
fn full_tables() {
    let mut random = Random::seeded();
    let line = "59-0 23-0 31-1 dec-jan sat-sun u a\n";
    let [full, over] = [ENTRIES, ENTRIES + 1].map(|count| line.repeat(count));
    for kind in Kind::BOTH {
        let numbers = numbers(&mut random, Rules::of(kind, Dialect::Wrapping));
        let compared = Compared::under(full.as_bytes(), numbers);
        assert_eq!(compared.check(), Ok(ENTRIES as u64));
        compared.everything(&mut random);
        let fault = Compared::under(over.as_bytes(), numbers).fault();
        assert_eq!(fault, Some([12, ENTRIES as u64 + 1, 1]));
    }
}
