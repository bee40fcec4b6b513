//! Random tables of every kind and dialect, against the reference program.

use super::{check_in, says, short};
use c::shown::times;
use c::{told, word, Subcommand};
use reference::random::Random;
use reference::table::{read, samples, Dialect, Entry, Fault, Kind, Rules, When};
use std::path::PathBuf;

fn options(rules: Rules) -> Vec<&'static str> {
    let kind = (rules.kind == Kind::System).then_some("-s");
    let dialect = (rules.dialect == Dialect::Wrapping).then_some("--dialect=wrapping");
    [kind, dialect].into_iter().flatten().collect()
}

/// A good table, one that was cut, one with some bytes changed, or one with some bad lines among the good ones.
fn table(random: &mut Random, rules: Rules, round: u64) -> Vec<u8> {
    let good = samples::table(random, rules, round % 20);
    match round % 5 {
        0 => good,
        1 => samples::cut_table(random, rules, 1 + round % 20),
        2 => samples::mutated(random, &good),
        3 => {
            let once = samples::mutated(random, &good);
            let twice = samples::mutated(random, &once);
            samples::mutated(random, &twice)
        }
        _ => {
            let mut lines: Vec<Vec<u8>> = good
                .split_inclusive(|&byte| byte == b'\n')
                .map(<[u8]>::to_vec)
                .collect();
            for _ in 0..random.below(6) {
                let (bad, _, _) = samples::bad_line(random, rules);
                let at = random.below(lines.len() as u64 + 1) as usize;
                lines.insert(at, [bad, b"\n".to_vec()].concat());
            }
            lines.concat()
        }
    }
}

/// The faults that are to be told: the table's own, and those of each other line that is bad when it is read alone.
fn faults(table: &[u8], rules: Rules) -> Vec<Fault> {
    let Err(verdict) = read(table, rules) else {
        return Vec::new();
    };
    if verdict.line == 0 {
        return vec![verdict];
    }
    let lines = table.split_inclusive(|&byte| byte == b'\n');
    let told = lines.enumerate().filter_map(|(before, line)| {
        let number = before as u64 + 1;
        let alone = read(line, rules).err().map(|fault| Fault {
            line: number,
            ..fault
        });
        if number == verdict.line {
            Some(verdict)
        } else {
            alone
        }
    });
    told.collect()
}

/// The place and the number of each diagnostic that is an error.
fn errors(name: &str, text: &str) -> Vec<Fault> {
    let errors = text.lines().filter_map(|line| {
        let rest = line.strip_prefix(name)?.strip_prefix(':')?;
        let (place, words) = rest.split_once(": error: ")?;
        let (line, column) = place.split_once(':')?;
        let number = words.strip_suffix(']')?.rsplit_once(" [")?.1;
        let [number, line, column] =
            [number, line, column].map(|text| text.parse().expect("a number"));
        Some(Fault {
            number,
            line,
            column,
        })
    });
    errors.collect()
}

/// Line, column and number of every fault, in order; the first is the table's own.
#[test]
fn every_fault_is_the_second_program_s() {
    let check = check_in("check-random");
    for rules in Rules::ALL {
        let mut random = Random::seeded();
        let mut several = 0;
        for round in 0..500 {
            let table = table(&mut random, rules, round);
            let told = short(&check, &options(rules), &table).join("\n");
            let found = errors("t", &told);
            assert_eq!(found, faults(&table, rules), "{}", table.escape_ascii());
            assert_eq!(found.first().copied(), read(&table, rules).err());
            several += usize::from(found.len() > 1);
        }
        assert!(several > 50, "only {several} tables had several faults");
    }
}

/// Many files in one call: the count of each good one, and the number of each other's faults.
#[test]
fn counts_are_the_second_program_s() {
    let check = check_in("check-counts");
    for rules in Rules::ALL {
        let mut random = Random::seeded();
        let mut paths: Vec<PathBuf> = options(rules).iter().map(PathBuf::from).collect();
        let mut expected = Vec::new();
        for round in 0..500 {
            let table = table(&mut random, rules, round);
            let path = check.write(&round.to_string(), &table);
            let count = |count: usize, one: &str, several: &str| match count {
                1 => format!("1 {one}"),
                _ => format!("{count} {several}"),
            };
            expected.push(match read(&table, rules) {
                Ok(read) => format!(
                    "{}: {}",
                    word(&path),
                    count(read.entries.len(), "entry", "entries")
                ),
                Err(_) => {
                    let faults = faults(&table, rules).len();
                    format!(
                        "{}: refused: {}",
                        word(&path),
                        count(faults, "error", "errors")
                    )
                }
            });
            paths.push(path);
        }
        let (text, _) = told(&check.run(&paths));
        let folder = word(&check.folder);
        let summaries = text.lines().filter(|line| {
            let name = line.split(": ").next().unwrap_or_default();
            name.starts_with(folder) && !name.contains(':')
        });
        let summaries: Vec<&str> = summaries
            .map(|line| line.split(", ").next().unwrap_or_default())
            .collect();
        assert_eq!(summaries, expected);
    }
}

/// Where a line has ASCII alone and is short, it is shown as it is, and the caret is in the column that is told.
#[test]
fn the_caret_is_in_the_column_that_is_told() {
    let check = check_in("check-caret");
    let mut random = Random::seeded();
    let mut seen = 0;
    for round in 0..400 {
        let rules = Rules::ALL[round as usize % 4];
        let table = table(&mut random, rules, round);
        let source: Vec<&[u8]> = table.split(|&byte| byte == b'\n').collect();
        let (text, _) = says(&check, &options(rules), &table);
        let lines: Vec<&str> = text.lines().collect();
        for (at, line) in lines.iter().enumerate() {
            let Some(fault) = errors("t", line).first().copied() else {
                continue;
            };
            let source = source[fault.line as usize - 1];
            let is_plain = |byte: &u8| byte.is_ascii_graphic() || b" \t".contains(byte);
            if source.len() >= 76 || !source.iter().all(is_plain) {
                continue;
            }
            let shown = String::from_utf8_lossy(source).replace('\t', " ");
            assert_eq!(lines[at + 1], format!("    {shown}"));
            let caret = lines[at + 2].find('^').expect("a caret");
            assert_eq!(caret as u64 + 1, fault.column + 4, "{text}");
            seen += 1;
        }
    }
    assert!(seen > 100, "only {seen} carets were seen");
}

/// What an entry runs and when, wherever it stands and however it is written.
fn meaning<'a>(entry: &'a Entry, table: &'a [u8]) -> impl PartialEq + 'a {
    let names = entry
        .column
        .parts()
        .map(|part| part.map(|part| part.of(table)));
    let when = match entry.when {
        When::Reboot => None,
        When::Times(schedule) => Some((times(&schedule), entry.offset)),
    };
    (when, names, entry.command)
}

/// The lines and names of the warnings that the reference program finds: of the same entries, and of those that never fire.
fn warnings(table: &[u8], rules: Rules) -> Vec<(u64, &'static str)> {
    let read = read(table, rules).expect("a good table");
    let mut found = Vec::new();
    for (number, entry) in read.entries.iter().enumerate() {
        let line = read.places[number].line;
        let before = &read.entries[..number];
        if before
            .iter()
            .any(|other| meaning(other, table) == meaning(entry, table))
        {
            found.push((line, "same"));
        }
        if entry.next_after(0) == Err(16) {
            found.push((line, "never"));
        }
    }
    found
}

/// A table of few times and few commands, so that many are the same and many never fire.
fn narrow_table(random: &mut Random, rules: Rules) -> String {
    let user = if rules.kind == Kind::System {
        ["u ", "v:w "]
    } else {
        ["", ""]
    };
    let lines = (0..random.below(12)).map(|_| match random.below(6) {
        0 => random
            .pick(&["CRON_TZ=+01:00\n", "CRON_TZ=-00:00\n", "# a\n", "\n"])
            .to_string(),
        1 => format!(
            "{} {}{}\n",
            random.pick(&["@reboot", "@daily"]),
            random.pick(&user),
            random.pick(&["a", "b"])
        ),
        _ => {
            let day = random.pick(&["30", "31", "29", "30-31", "*/30", "1", "1-31", "*"]);
            let month = random.pick(&["2", "feb", "4,6", "4-6/2", "*", "2,3"]);
            let weekday = random.pick(&["*", "*/2", "1", "0-6"]);
            format!(
                "0 0 {day} {month} {weekday} {}{}\n",
                random.pick(&user),
                random.pick(&["a", "b"])
            )
        }
    });
    lines.collect()
}

fn named(told: &[String]) -> Vec<(u64, &str)> {
    let one = |told: &String| -> Option<(u64, &'static str)> {
        let name = ["same", "never"]
            .into_iter()
            .find(|name| told.ends_with(&format!(" [{name}]")))?;
        let line = told.strip_prefix("t:")?.split(':').next()?;
        Some((line.parse().ok()?, name))
    };
    told.iter().filter_map(one).collect()
}

#[test]
fn warnings_are_the_second_program_s() {
    let check: Subcommand = check_in("check-random-warnings");
    let mut random = Random::seeded();
    let mut seen = 0;
    for round in 0..400 {
        let rules = Rules::ALL[round % 4];
        let table = narrow_table(&mut random, rules);
        let told = short(&check, &options(rules), &table);
        let expected = warnings(table.as_bytes(), rules);
        assert_eq!(named(&told), expected, "{table}");
        seen += expected.len();
    }
    assert!(seen > 100, "only {seen} warnings were seen");
}
