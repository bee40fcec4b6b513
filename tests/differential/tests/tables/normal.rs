//! Tables written back in their normal form (ticket 2026-06).

use differential::samples::ended;
use differential::table::Compared;
use eremothyn::{Answer, Table};
use guard::Guarded;
use reference::random::Random;
use reference::table::documents;
use reference::table::normal::{item, meaning, samples, text};
use reference::table::samples::{LIMITS, WORDS};
use reference::table::{ENTRIES, LINE_BYTES, TABLE_BYTES};

const TOO_SHORT: Answer = Err(18);
const TOO_LONG: Answer = Err(21);

/// The library's text of a table, compared with the reference program's in buffers of every sort.
fn written(table: &[u8]) -> Result<Vec<u8>, u64> {
    Compared::of(table).normal_form_into_all();
    let lent = Guarded::read_only(table);
    let mut buffer = vec![0; TABLE_BYTES];
    let answer = Guarded::lend(&mut buffer, |buffer| Table::of(&lent).normal_form(buffer))?;
    buffer.truncate(answer as usize);
    Ok(buffer)
}

/// The text of a table that has one: it means the same, is its own text, each line is written by itself, and it comes back from
/// the table's records.
fn written_by_law(table: &[u8]) -> Vec<u8> {
    let shown = table.escape_ascii();
    let text = written(table).unwrap_or_else(|refusal| panic!("{refusal}: {shown}"));
    assert_eq!(meaning(&text), meaning(table), "{shown}");
    assert_eq!(written(&text).as_ref(), Ok(&text), "{shown}");
    let lines = table.split_inclusive(|&byte| byte == b'\n');
    let apart: Vec<Vec<u8>> = lines.map(|line| written(line).expect("a line")).collect();
    assert_eq!(apart.concat(), text, "{shown}");
    let _ = Compared::of(table).there_and_back();
    text
}

#[test]
fn known_texts() {
    let rows: [(&str, &str); 21] = [
        ("", ""),
        ("# a\n\n \t\n", ""),
        ("A=b", "A=b\n"),
        (" A\t= b c \n", "A=b c\n"),
        ("'A'=\"\"", "A=\n"),
        ("'A B'=' b'", "\"A B\"=\" b\"\n"),
        ("'\"'='\"b'", "'\"'='\"b'\n"),
        ("'1'=b'", "\"1\"=b'\n"),
        ("'CRON_TZ' =\t\"-00:00\" ", "CRON_TZ=-00:00\n"),
        ("@reboot\ta  b ", "@reboot a  b \n"),
        ("@yearly a", "0 0 1 1 * a\n"),
        ("@annually a", "0 0 1 1 * a\n"),
        ("@monthly a", "0 0 1 * * a\n"),
        ("@weekly a", "0 0 * * 0 a\n"),
        ("@daily a", "0 0 * * * a\n"),
        ("@midnight a", "0 0 * * * a\n"),
        ("@hourly a", "0 * * * * a\n"),
        ("*/1 */9999 */31 */2 */9 a", "* */24 */31 */2 */7 a\n"),
        (
            "59,0 1-3 1-31/10 jan,dec fri-sun a",
            "0,59 1,2,3 1,11,21,31 1,12 0,5,6 a\n",
        ),
        ("0 0 1 1 7\t#a\\%%b", "0 0 1 1 0 #a\\%%b\n"),
        (
            "B=c\n# d\n@daily x\n\nA=b\n@reboot y\nA=b",
            "B=c\n0 0 * * * x\nA=b\n@reboot y\nA=b\n",
        ),
    ];
    for (table, expected) in rows {
        let text = written_by_law(&ended(table));
        assert_eq!(
            text.escape_ascii().to_string(),
            expected.as_bytes().escape_ascii().to_string()
        );
    }
}

#[test]
fn the_documents_tables() {
    let entries = documents::ENTRIES.iter().map(|(line, _)| *line);
    let settings = documents::SETTINGS.iter().map(|(line, ..)| *line);
    let mut good = Vec::new();
    for line in entries.chain(settings) {
        let table = ended(line);
        match Compared::of(&table).fault() {
            None => {
                let _ = written_by_law(&table);
                good.push(line);
            }
            Some([number, ..]) => assert_eq!(written(&table), Err(number)),
        }
    }
    let _ = written_by_law(&ended(good.join("\n# and\n")));
    let normal = "SHELL=/bin/sh\n\
        MAILTO=paul\n\
        5 0 * * * $HOME/bin/daily.job >> $HOME/tmp/out 2>&1\n\
        15 14 1 * * $HOME/bin/monthly\n\
        0 22 * * 1,2,3,4,5 mail -s \"It's 10pm\" joe%Joe,%%Where are your kids?%\n\
        23 0,2,4,6,8,10,12,14,16,18,20,22 * * * echo \"run 23 minutes after midn, 2am, 4am ..., everyday\"\n\
        5 4 * * 0 echo \"run at 5 after 4 every sunday\"\n";
    assert_eq!(
        written_by_law(documents::VIXIE.as_bytes()),
        normal.as_bytes()
    );
}

/// An entry with one field given, and 1 in the others.
fn with_field(which: usize, field: &str) -> String {
    let mut fields = ["1"; 5];
    fields[which] = field;
    format!("{} a\n", fields.join(" "))
}

/// The text of one field.
fn field(which: usize, field: &str) -> String {
    let text = written(with_field(which, field).as_bytes()).expect(field);
    let text = String::from_utf8(text).expect("text");
    text.split(' ').nth(which).expect("five fields").to_string()
}

/// `*/n` has the smallest n that gives the set.
#[test]
fn every_step_of_every_field() {
    // From these on a step keeps the first value alone; two weekdays are Sunday.
    let alone = [60, 24, 31, 12, 7];
    for (which, alone) in alone.into_iter().enumerate() {
        assert_eq!(field(which, "*"), "*");
        assert_eq!(field(which, "*/1"), "*");
        for step in (2..=300).chain((301..=9_999).step_by(61)).chain([9_999]) {
            let expected = format!("*/{}", step.min(alone));
            assert_eq!(field(which, &format!("*/{step}")), expected);
            assert_eq!(field(which, &format!("*/{step:04}")), expected);
        }
    }
}

/// What doesn't begin with a star is its numbers, also where it has every value.
#[test]
fn every_range_of_every_field() {
    let steps = [1, 2, 3, 5, 7, 10, 31, 59, 60, 9_999];
    for (which, (first, last)) in LIMITS.into_iter().enumerate() {
        for low in first..=last {
            for high in low..=last {
                for step in steps {
                    let values = (low..=high).step_by(step);
                    let mut values: Vec<u64> = match which {
                        4 => values.map(|value| value % 7).collect(),
                        _ => values.collect(),
                    };
                    values.sort();
                    values.dedup();
                    let expected: Vec<String> = values.iter().map(u64::to_string).collect();
                    let text = format!("{low}-{high}/{step}");
                    assert_eq!(field(which, &text), expected.join(","), "{text}");
                }
            }
        }
    }
}

/// Any set of a field, its values one by one from the last.
#[test]
fn lists_of_any_values() {
    let mut random = Random::seeded();
    for round in 0..20_000 {
        let which = round % 5;
        let (first, last) = LIMITS[which];
        let dense = 1 + random.below(8);
        let in_set = |_: &u64| random.below(8) < dense;
        let values: Vec<u64> = (first..=last).filter(in_set).collect();
        if values.is_empty() {
            continue;
        }
        let numbers: Vec<String> = values.iter().rev().map(u64::to_string).collect();
        let mut rising = values.clone();
        if which == 4 {
            rising.iter_mut().for_each(|value| *value %= 7);
            rising.sort();
            rising.dedup();
        }
        let rising: Vec<String> = rising.iter().map(u64::to_string).collect();
        assert_eq!(field(which, &numbers.join(",")), rising.join(","));
    }
}

/// Every line of up to six of the bytes that decide on quotes, and some that don't.
#[test]
fn short_lines_of_the_bytes_that_settings_are_made_of() {
    let bytes = b"a1=\"' ";
    let mut lines: Vec<Vec<u8>> = vec![Vec::new()];
    let mut settings = 0;
    for _ in 0..6 {
        let longer = |line: &Vec<u8>| bytes.map(|byte| [&line[..], &[byte]].concat());
        lines = lines.iter().flat_map(longer).collect();
        for line in &lines {
            let table = ended(line);
            if let Ok(text) = written(&table) {
                assert_eq!(meaning(&text), meaning(&table), "{}", line.escape_ascii());
                settings += u32::from(!text.is_empty());
            }
        }
    }
    assert!(settings > 1_000, "{settings}");
}

/// Every byte as the first, the only, the last and a middle one of a name and of a value, in quotes of both kinds.
#[test]
fn every_byte_in_a_name_and_in_a_value() {
    for byte in (1..=255_u8).filter(|&byte| byte != b'\n') {
        let texts = [
            vec![byte],
            vec![byte, b'b'],
            vec![b'a', byte],
            vec![b'a', byte, b'b'],
        ];
        for text in texts {
            for quote in [&b""[..], b"\"", b"'"] {
                let quoted = [quote, &text, quote].concat();
                for line in [
                    [&quoted[..], b"=v\n"].concat(),
                    [b"n=", &quoted[..], b"\n"].concat(),
                    [b"* * * * * ", &quoted[..], b"\n"].concat(),
                ] {
                    if Compared::of(&line).fault().is_none() {
                        let _ = written_by_law(&line);
                    }
                }
            }
        }
    }
}

#[test]
fn random_tables() {
    let mut random = Random::seeded();
    for _ in 0..20_000 {
        let lines = random.below(7);
        let table = samples::table(&mut random, lines);
        let _ = written_by_law(&table);
    }
}

/// Tables that say the same in other words have the same text.
#[test]
fn equal_meanings_write_equal_bytes() {
    let mut random = Random::seeded();
    for _ in 0..8_000 {
        let lines = random.below(7);
        let table = samples::table(&mut random, lines);
        let text = written(&table).expect("a short table");
        let items = meaning(&table).expect("a good table");
        for _ in 0..4 {
            let other = samples::respelled(&mut random, &items);
            let shown = other.escape_ascii();
            assert_eq!(meaning(&other).as_ref(), Ok(&items), "{shown}");
            assert_eq!(written(&other).as_ref(), Ok(&text), "{shown}");
        }
    }
}

/// And tables that don't have different ones.
#[test]
fn what_differs_in_meaning_differs_in_its_text() {
    let rows = [
        ("* * * * * a", "0-59 * * * * a"),
        ("* * * * * a", "* * * 1-12 * a"),
        ("*/60 * * * * a", "0 * * * * a"),
        ("0 0 * * 0 a", "0 0 * * */7 a"),
        ("@reboot a", "@daily a"),
        ("@daily a", "@daily a "),
        ("A=b", "A=\"b \""),
        ("A=b\nA=b", "A=b"),
        ("A=b\n@daily a", "@daily a\nA=b"),
        ("A=", "A=\"'\""),
    ];
    for (one, other) in rows {
        let [one, other] = [one, other].map(ended);
        assert_ne!(meaning(&one), meaning(&other));
        let [one, other] = [one, other].map(|table| written_by_law(&table));
        assert_ne!(one, other);
    }
}

/// A line may be too long only when it is written; the table's refusal comes before that, and a short buffer behind it.
#[test]
fn lines_about_as_long_as_may_be() {
    let mut random = Random::seeded();
    for written in (LINE_BYTES - 2..=LINE_BYTES + 3).chain([LINE_BYTES + 90]) {
        let mut lines = 0;
        while lines < 60 {
            let Some(line) = samples::written_in(&mut random, written) else {
                continue;
            };
            lines += 1;
            for (before, behind) in [("", "\n"), ("\n", "\n\n"), ("A = b\n#\n", "\n@daily c\n")] {
                let table = [before.as_bytes(), &line, behind.as_bytes()].concat();
                let compared = Compared::of(&table);
                compared.normal_form_into_all();
                compared.compile_into_all();
                let text = text(&meaning(&table).expect("a good table"));
                let fits = written <= LINE_BYTES;
                let expected = |answer: Answer| if fits { answer } else { TOO_LONG };
                assert_eq!(
                    compared.normal_form(text.len()),
                    expected(Ok(text.len() as u64))
                );
                assert_eq!(compared.normal_form(text.len() - 1), expected(TOO_SHORT));
                let bad = [&table[..], b"\n60"].concat();
                let bad = Compared::of(&bad);
                assert_eq!(bad.normal_form(0), Err(6));
                assert_eq!(bad.normal_form(TABLE_BYTES), Err(6));
            }
        }
    }
}

/// Each way in which a line grows by a byte or more, at the limit and past it.
#[test]
fn every_word_and_every_set_at_the_limit_of_a_line() {
    let times = [
        "0-59 * * * *",
        "* 0-23 * * *",
        "* * 1-31 * *",
        "* * * jan-dec *",
        "* * * * sun-sat",
    ];
    for time in times.into_iter().chain(WORDS) {
        let start = format!("{time} ");
        let one = format!("{start}a");
        let grown = item(one.as_bytes()).expect("an entry").text().len() - one.len();
        for over in 0..=grown.min(2) {
            let line = format!(
                "{start}{}",
                "a".repeat(LINE_BYTES - start.len() - grown + over)
            );
            let table = ended(line);
            let compared = Compared::of(&table);
            let expected = match over {
                0 => Ok(LINE_BYTES as u64 + 1),
                _ => TOO_LONG,
            };
            assert_eq!(compared.normal_form(TABLE_BYTES), expected, "{time}");
        }
    }
    // A setting never grows: as long a line as may be, in every way to write it.
    for (start, end) in [
        ("A=", ""),
        ("A='", "'"),
        ("\"A\"=", ""),
        ("'A B'=\"", " \""),
        (" A = ", " "),
    ] {
        let line = format!(
            "{start}{}{end}",
            "b".repeat(LINE_BYTES - start.len() - end.len())
        );
        let _ = written_by_law(&ended(line));
    }
}

/// Texts about as long as a table may be.
#[test]
fn tables_about_as_long_as_may_be() {
    let mut random = Random::seeded();
    for length in (TABLE_BYTES - 2..=TABLE_BYTES + 2).chain([TABLE_BYTES + 700]) {
        for _ in 0..30 {
            let table = samples::table_written_in(&mut random, length);
            let compared = Compared::of(&table);
            assert_eq!(compared.fault(), None);
            let fits = length <= TABLE_BYTES;
            let expected = |answer: Answer| if fits { answer } else { TOO_LONG };
            let length = length as u64;
            assert_eq!(compared.normal_form(2 * TABLE_BYTES), expected(Ok(length)));
            assert_eq!(compared.normal_form(length as usize), expected(Ok(length)));
            assert_eq!(
                compared.normal_form(length as usize - 1),
                expected(TOO_SHORT)
            );
            assert_eq!(compared.normal_form(0), expected(TOO_SHORT));
            assert_eq!(compared.compile(0), expected(TOO_SHORT));
            compared.compile_into_all();
        }
    }
}

/// A last line without its newline is refused before the text's length is looked at.
#[test]
fn a_cut_table_has_no_text() {
    for length in [TABLE_BYTES - 1, TABLE_BYTES] {
        let lines = "A=b\n".repeat(length / 4 - 2);
        let value = "c".repeat(length - lines.len() - 2);
        let table = format!("{lines}A={value}");
        assert_eq!(written(table.as_bytes()), Err(26));
    }
    let long = format!("0-59 * * * * {}", "a".repeat(LINE_BYTES - 20));
    assert_eq!(written(long.as_bytes()), Err(26));
    assert_eq!(written(&ended(long)), TOO_LONG.map(|_| Vec::new()));
}

/// As many entries as may be, and as many lines.
#[test]
fn full_tables() {
    let mut random = Random::seeded();
    for time in ["@daily", "* * * * *", "@reboot", "0-30/3 0 1-7 jan mon"] {
        let table = format!("{time} a\n").repeat(ENTRIES);
        let text = written_by_law(table.as_bytes());
        assert_eq!(Compared::of(&text).check(), Ok(ENTRIES as u64));
        let more = format!("{table}{time} a");
        assert_eq!(written(more.as_bytes()), Err(12));
    }
    let settings = "A=\n".repeat(TABLE_BYTES / 3);
    assert_eq!(
        written(settings.as_bytes()),
        Ok(settings.clone().into_bytes())
    );
    let newlines = "\n".repeat(TABLE_BYTES);
    assert_eq!(written(newlines.as_bytes()), Ok(Vec::new()));
    for _ in 0..100 {
        let table = samples::table(&mut random, 150);
        if table.len() <= TABLE_BYTES && Compared::of(&table).fault().is_none() {
            let text = written(&table).expect("lines that grow little");
            assert_eq!(meaning(&text), meaning(&table));
        }
    }
}

/// Whatever kind a table has, it is read as a user's.
#[test]
fn there_is_no_kind() {
    let table = b"@daily root a\n* * * * * b\n";
    for kind in [0, 1, 2, 1 << 32, u64::MAX] {
        let compared = Compared::under(table, kind);
        compared.normal_form_into_all();
        let text = compared.normal_text().expect("a good user table");
        assert_eq!(text, b"0 0 * * * root a\n* * * * * b\n");
    }
}
