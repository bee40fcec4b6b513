use super::*;
use crate::random::Random;
use crate::table::documents;
use crate::table::samples as tables;
use crate::table::ENTRIES;

fn written(table: &str) -> String {
    let ended = match table.ends_with('\n') || table.is_empty() {
        true => table.into(),
        false => format!("{table}\n"),
    };
    let text = normal_text(ended.as_bytes()).expect(table);
    String::from_utf8(text).expect("text")
}

#[test]
fn settings_have_quotes_only_where_a_bare_reading_would_differ() {
    let rows = [
        // No blanks around `=`, and none at the ends.
        ("A=b", "A=b"),
        ("\t A \t=\t b c \t", "A=b c"),
        ("A = b  c", "A=b  c"),
        // Quotes that change nothing.
        ("\"A\"='b'", "A=b"),
        ("'A'=\"it's\"", "A=it's"),
        ("A='a\"b'", "A=a\"b"),
        ("A=\"b=c\"", "A=b=c"),
        ("A='#b'", "A=#b"),
        // A bare name is no entry and no comment, and has no blank, `=` or quote.
        ("'1'=b", "\"1\"=b"),
        ("'9A'=b", "\"9A\"=b"),
        ("'*'=b", "\"*\"=b"),
        ("'@daily'=b", "\"@daily\"=b"),
        ("'#'=b", "\"#\"=b"),
        ("'A1*@#'=b", "A1*@#=b"),
        ("'-1'=b", "-1=b"),
        ("'A B'=b", "\"A B\"=b"),
        ("' A'=b", "\" A\"=b"),
        ("'A\t'=b", "\"A\t\"=b"),
        ("' '=b", "\" \"=b"),
        ("'A=B'=b", "\"A=B\"=b"),
        ("'='=b", "\"=\"=b"),
        // Double before single.
        ("\"it's\"=b", "\"it's\"=b"),
        ("'\"'=b", "'\"'=b"),
        ("'A \"B\"'=b", "'A \"B\"'=b"),
        // A bare value starts with no blank or quote, and ends with no blank.
        ("A=' b'", "A=\" b\""),
        ("A=\"\tb\"", "A=\"\tb\""),
        ("A='b '", "A=\"b \""),
        ("A=' '", "A=\" \""),
        ("A=\"'b'\"", "A=\"'b'\""),
        ("A='\"b\"'", "A='\"b\"'"),
        ("A='\"'", "A='\"'"),
        ("A='b\" '", "A='b\" '"),
        ("A=b'\"c", "A=b'\"c"),
        ("A=b\"", "A=b\""),
        // Nothing is bare.
        ("A=", "A="),
        ("A= \t", "A="),
        ("A=''", "A="),
        ("A=\"\" ", "A="),
        // Only space and tab are blanks.
        ("A=' b\u{a0}'", "A=\" b\u{a0}\""),
        ("'A\u{a0}'=b", "A\u{a0}=b"),
        ("A=\u{a0}b\u{a0}", "A=\u{a0}b\u{a0}"),
        // As any other.
        ("'CRON_TZ' =\t\"+05:30\" ", "CRON_TZ=+05:30"),
        ("CRON_TZ = -00:00", "CRON_TZ=-00:00"),
    ];
    for (line, expected) in rows {
        assert_eq!(written(line), format!("{expected}\n"), "{line}");
    }
}

#[test]
fn entries_have_their_fields_and_their_command() {
    let rows = [
        // `@reboot` stays, and other words become fields.
        ("@reboot a", "@reboot a"),
        (" @reboot \t a b ", "@reboot a b "),
        ("@yearly a", "0 0 1 1 * a"),
        ("@annually a", "0 0 1 1 * a"),
        ("@monthly a", "0 0 1 * * a"),
        ("@weekly a", "0 0 * * 0 a"),
        ("@daily a", "0 0 * * * a"),
        ("@midnight a", "0 0 * * * a"),
        ("@hourly a", "0 * * * * a"),
        // A flagged field.
        ("* * * * * a", "* * * * * a"),
        ("*/1 */1 */1 */1 */1 a", "* * * * * a"),
        ("*/2 */2 */2 */2 */2 a", "*/2 */2 */2 */2 */2 a"),
        ("*/0030 */012 */15 */6 */4 a", "*/30 */12 */15 */6 */4 a"),
        ("*/59 */23 */30 */11 */7 a", "*/59 */23 */30 */11 */7 a"),
        ("*/60 */24 */31 */12 */8 a", "*/60 */24 */31 */12 */7 a"),
        (
            "*/9999 */9999 */9999 */9999 */9999 a",
            "*/60 */24 */31 */12 */7 a",
        ),
        // Any other: its numbers, rising, by commas, Sunday as 0.
        ("5 4 3 2 1 a", "5 4 3 2 1 a"),
        ("05 0004 3,3 2-2 1-1/9 a", "5 4 3 2 1 a"),
        ("30,0,15 5,1-3 31,1 dec,jan 6,5 a", "0,15,30 1,2,3,5 1,31 1,12 5,6 a"),
        ("0-59/30 0-23/12 1-31/10 1-12/6 0-7/3 a", "0,30 0,12 1,11,21,31 1,7 0,3,6 a"),
        ("0 0 1-31 1-12 0-7 a", "0 0 1,2,3,4,5,6,7,8,9,10,11,12,13,14,15,16,17,18,19,20,21,22,23,24,25,26,27,28,29,30,31 1,2,3,4,5,6,7,8,9,10,11,12 0,1,2,3,4,5,6 a"),
        ("0 0 1 1 7 a", "0 0 1 1 0 a"),
        ("0 0 1 FEB fri-sun a", "0 0 1 2 0,5,6 a"),
        ("0 0 1 1 0,7 a", "0 0 1 1 0 a"),
        // The command is copied raw.
        ("* * * * *\t  a  b\t ", "* * * * * a  b\t "),
        ("* * * * * # a", "* * * * * # a"),
        ("* * * * * a\\%b%c%%d%", "* * * * * a\\%b%c%%d%"),
        ("* * * * * 'a\"\u{a0}", "* * * * * 'a\"\u{a0}"),
        ("* * * * * * * * * *", "* * * * * * * * * *"),
    ];
    for (line, expected) in rows {
        assert_eq!(written(line), format!("{expected}\n"), "{line}");
    }
}

/// The smallest step that gives the set, of every step in every field.
#[test]
fn every_step_of_every_field() {
    let alone = [60, 24, 31, 12, 7];
    for (which, alone) in alone.into_iter().enumerate() {
        for step in 1..=9_999 {
            let mut fields = [
                "1".to_string(),
                "1".into(),
                "1".into(),
                "1".into(),
                "1".into(),
            ];
            fields[which] = format!("*/{step}");
            let table = format!("{} a\n", fields.join(" "));
            fields[which] = match step.min(alone) {
                1 => "*".into(),
                step => format!("*/{step}"),
            };
            let expected = format!("{} a\n", fields.join(" "));
            assert_eq!(written(&table), expected, "{table}");
        }
    }
}

#[test]
fn settings_and_entries_in_order_and_nothing_else() {
    let rows = [
        ("", ""),
        ("\n\n", ""),
        (" \n\t", ""),
        ("# a\n\t# b = c\n", ""),
        ("A=b", "A=b\n"),
        (
            "\n# one\nB=c\n\n@daily a\nA=b\n \n@reboot a\nA=b\n#",
            "B=c\n0 0 * * * a\nA=b\n@reboot a\nA=b\n",
        ),
        (
            "@daily b\n@daily a\n@midnight b",
            "0 0 * * * b\n0 0 * * * a\n0 0 * * * b\n",
        ),
    ];
    for (table, expected) in rows {
        assert_eq!(written(table), expected, "{table}");
    }
}

/// The table's own, then 21, then 18; and no byte of the buffer changes.
#[test]
fn refusals_in_their_order() {
    let line = |length: usize| format!("@daily {}", "a".repeat(length - 10));
    let lines = |count: usize| format!("{}\n", line(LINE_BYTES)).repeat(count);
    let whole = TABLE_BYTES / (LINE_BYTES + 1);
    let rest = TABLE_BYTES % (LINE_BYTES + 1);
    // Three bytes shorter than when it is written.
    assert_eq!(line(LINE_BYTES).len(), LINE_BYTES - 3);
    let rows: [(String, usize, Answer); 16] = [
        ("A = b\n".into(), 4, Ok(4)),
        ("A = b\n".into(), 100, Ok(4)),
        ("A = b\n".into(), 3, Err(18)),
        ("A = b\n".into(), 0, Err(18)),
        ("".into(), 0, Ok(0)),
        ("# a\n".into(), 0, Ok(0)),
        ("# a".into(), 0, Err(26)),
        ("A".into(), 0, Err(11)),
        (lines(1), LINE_BYTES + 1, Ok(LINE_BYTES as u64 + 1)),
        (lines(1), LINE_BYTES, Err(18)),
        (line(LINE_BYTES + 1) + "\n", 0, Err(21)),
        (line(LINE_BYTES + 1) + "\n", 2_000, Err(21)),
        (format!("{}\nA", line(LINE_BYTES + 1)), 0, Err(11)),
        (
            lines(whole) + &line(rest - 1) + "\n",
            TABLE_BYTES,
            Ok(TABLE_BYTES as u64),
        ),
        (
            lines(whole) + &line(rest - 1) + "\n",
            TABLE_BYTES - 1,
            Err(18),
        ),
        (lines(whole) + &line(rest) + "\n", TABLE_BYTES - 1, Err(21)),
    ];
    for (table, length, expected) in rows {
        let before = vec![b'~'; length];
        let mut buffer = before.clone();
        let found = normal_form(table.as_bytes(), &mut buffer);
        assert_eq!(found, expected, "{table} into {length}");
        let written = found.unwrap_or(0) as usize;
        assert_eq!(buffer[written..], before[written..], "{table}");
        if let Ok(text) = normal_text(table.as_bytes()) {
            assert!(written == 0 || buffer[..written] == text, "{table}");
        }
    }
}

/// Reading it back gives the same meaning, it is its own text, and each line is written by itself.
fn obeys(table: &[u8]) {
    let items = meaning(table).expect("a good table");
    let text = text(&items);
    let shown = text.escape_ascii();
    let lines: Vec<Vec<u8>> = table
        .split_inclusive(|&byte| byte == b'\n')
        .map(|line| normal_text(line).unwrap_or_default())
        .collect();
    if let Ok(written) = normal_text(table) {
        assert_eq!(written, text, "{shown}");
        assert_eq!(meaning(&text), Ok(items), "{shown}");
        assert_eq!(normal_text(&text).as_ref(), Ok(&text), "{shown}");
        assert_eq!(lines.concat(), text, "{shown}");
    }
}

#[test]
fn the_documents_tables_are_read_back() {
    let good = |line: &String| read(line.as_bytes(), Dialect::Rising).is_ok();
    let entries = documents::ENTRIES.iter().map(|(line, _)| *line);
    let settings = documents::SETTINGS.iter().map(|(line, ..)| *line);
    let ended = entries.chain(settings).map(|line| format!("{line}\n"));
    let lines: Vec<String> = ended.filter(good).collect();
    for line in &lines {
        obeys(line.as_bytes());
    }
    obeys(lines.concat().as_bytes());
}

#[test]
fn random_tables_are_read_back_and_equal_meanings_have_one_text() {
    let mut random = Random::seeded();
    for _ in 0..10_000 {
        let count = random.below(6);
        let table = samples::table(&mut random, count);
        obeys(&table);
        let items = meaning(&table).expect("a good table");
        for _ in 0..3 {
            let other = samples::respelled(&mut random, &items);
            assert_eq!(meaning(&other).as_ref(), Ok(&items));
            assert_eq!(normal_text(&other), normal_text(&table));
        }
    }
}

/// A normal text has no range, no name and no 7.
#[test]
fn a_normal_text_reads_the_same_in_either_dialect() {
    let mut random = Random::seeded();
    for dialect in Dialect::BOTH.repeat(5_000) {
        let count = random.below(6);
        let table = tables::table(&mut random, dialect, count);
        let text = normal_text_of(&table, dialect).expect("a short table");
        let items = meaning_of(&table, dialect);
        for reader in Dialect::BOTH {
            assert_eq!(meaning_of(&text, reader), items, "{}", table.escape_ascii());
            assert_eq!(normal_text_of(&text, reader).as_ref(), Ok(&text));
        }
    }
}

#[test]
fn samples_have_the_lengths_that_they_say() {
    let mut random = Random::seeded();
    for length in [200, 999, 1_000, 1_001, 1_100, 1_200].repeat(50) {
        if let Some(line) = samples::written_in(&mut random, length) {
            let text = item(&line).expect("an entry").text();
            assert_eq!(text.len(), length);
        }
    }
    for length in [2_000, 5_000, TABLE_BYTES - 1, TABLE_BYTES, TABLE_BYTES + 1] {
        for _ in 0..50 {
            let table = samples::table_written_in(&mut random, length);
            let items = meaning(&table).expect("a good table");
            assert_eq!(text(&items).len(), length);
            assert!(items.len() <= ENTRIES);
            let fits = length <= TABLE_BYTES;
            assert_eq!(normal_text(&table).is_ok(), fits);
        }
    }
}
