//! What `-d` prints: a unified diff, from which the normal text can be had.

use super::{all, format_in, is};
use reference::random::Random;
use reference::table::normal::{normal_text, samples};

/// So many settings, in normal form if their number isn't among those given.
fn settings(count: usize, changed: &[usize]) -> String {
    let line = |number: usize| match changed.contains(&number) {
        true => format!("A{number} = b\n"),
        false => format!("A{number}=b\n"),
    };
    (1..=count).map(line).collect()
}

#[test]
fn known_diffs() {
    let format = format_in("format-diff");
    let rows: [(String, &str); 8] = [
        ("A=b\n".into(), ""),
        ("".into(), ""),
        ("@daily  rotate\n".into(), "@@ -1,1 +1,1 @@\n-@daily  rotate\n+0 0 * * * rotate\n"),
        ("# all\n\n# of it\n".into(), "@@ -1,3 +0,0 @@\n-# all\n-\n-# of it\n"),
        ("A=b\n# c\n".into(), "@@ -1,2 +1,1 @@\n A=b\n-# c\n"),
        // A run of changes: what goes, and then what comes.
        (
            "A = b\n# c\n\nC = d\nE=f\n".into(),
            "@@ -1,5 +1,3 @@\n-A = b\n-# c\n-\n-C = d\n+A=b\n+C=d\n E=f\n",
        ),
        // Three lines of context, and two changes that are near are shown together.
        (
            settings(20, &[5, 12]),
            "@@ -2,14 +2,14 @@\n A2=b\n A3=b\n A4=b\n-A5 = b\n+A5=b\n A6=b\n A7=b\n A8=b\n A9=b\n A10=b\n A11=b\n-A12 = b\n+A12=b\n A13=b\n A14=b\n A15=b\n",
        ),
        (
            settings(20, &[5, 13]),
            "@@ -2,7 +2,7 @@\n A2=b\n A3=b\n A4=b\n-A5 = b\n+A5=b\n A6=b\n A7=b\n A8=b\n@@ -10,7 +10,7 @@\n A10=b\n A11=b\n A12=b\n-A13 = b\n+A13=b\n A14=b\n A15=b\n A16=b\n",
        ),
    ];
    for (table, hunks) in rows {
        format.write("table", &table);
        let expected = match hunks {
            "" => String::new(),
            _ => format!("--- table.orig\n+++ table\n{hunks}"),
        };
        for option in ["-d", "--diff"] {
            assert_eq!(all(&format.run(&[option, "table"])), is(&expected, "", 0));
        }
        assert_eq!(format.read("table"), table.as_bytes());
    }
    let input = format.run_with(&["-d"], b"A = b\n");
    let expected = "--- -.orig\n+++ -\n@@ -1,1 +1,1 @@\n-A = b\n+A=b\n";
    assert_eq!(all(&input), is(expected, "", 0));
}

/// Lines that are taken out before a hunk change where it stands in the text.
#[test]
fn hunks_have_their_places_in_both() {
    let format = format_in("format-hunks");
    let table = format!("# one\n# two\n{}B = c\n", settings(10, &[]));
    format.write("table", &table);
    let expected = "--- table.orig\n+++ table\n\
        @@ -1,5 +1,3 @@\n-# one\n-# two\n A1=b\n A2=b\n A3=b\n\
        @@ -10,4 +8,4 @@\n A8=b\n A9=b\n A10=b\n-B = c\n+B=c\n";
    assert_eq!(all(&format.run(&["-d", "table"])), is(expected, "", 0));
}

#[test]
fn every_file_that_differs_has_a_diff() {
    let format = format_in("format-diffs");
    format.write("one", "A = b\n");
    format.write("two", "A=b\n");
    format.write("three", "\nA=b\n");
    let expected = "--- one.orig\n+++ one\n@@ -1,1 +1,1 @@\n-A = b\n+A=b\n\
        --- three.orig\n+++ three\n@@ -1,2 +1,1 @@\n-\n A=b\n";
    let output = format.run(&["-d", "one", "two", "three"]);
    assert_eq!(all(&output), is(expected, "", 0));
    let listed = expected
        .replace("--- one", "one\n--- one")
        .replace("--- three", "three\n--- three");
    let output = format.run(&["-l", "-d", "one", "two", "three"]);
    assert_eq!(all(&output), is(&listed, "", 0));
}

/// The numbers of a hunk's head: where it starts and how many lines it has, in the old text and in the new one.
fn head(line: &[u8]) -> [usize; 4] {
    let line = std::str::from_utf8(line).expect("a head");
    let ranges = line
        .strip_prefix("@@ -")
        .and_then(|line| line.strip_suffix(" @@\n"))
        .and_then(|line| line.split_once(" +"))
        .unwrap_or_else(|| panic!("{line}"));
    let range = |text: &str| {
        let (start, count) = text.split_once(',').expect("a comma");
        [start, count].map(|number| number.parse().expect("a number"))
    };
    let ([a, b], [c, d]) = (range(ranges.0), range(ranges.1));
    [a, b, c, d]
}

/// What a diff makes of a text, by the diff's own rules.
fn patched(old: &[u8], diff: &[u8]) -> Vec<u8> {
    let mut old = old.split_inclusive(|&byte| byte == b'\n');
    let mut lines = diff.split_inclusive(|&byte| byte == b'\n').skip(2);
    let mut new: Vec<Vec<u8>> = Vec::new();
    let mut taken = 0;
    while let Some(line) = lines.next() {
        let [old_start, old_count, new_start, new_count] = head(line);
        while taken + usize::from(old_count > 0) < old_start {
            new.push(old.next().expect("a line").to_vec());
            taken += 1;
        }
        assert_eq!(new.len() + usize::from(new_count > 0), new_start);
        let (until_old, until_new) = (taken + old_count, new.len() + new_count);
        while taken < until_old || new.len() < until_new {
            let line = lines.next().expect("a line");
            let (mark, text) = (line[0], line[1..].to_vec());
            if mark != b'+' {
                assert_eq!(old.next(), Some(&text[..]));
                taken += 1;
            }
            if mark != b'-' {
                new.push(text);
            }
            assert!(b"+- ".contains(&mark));
        }
        assert_eq!((taken, new.len()), (until_old, until_new));
    }
    new.extend(old.map(<[u8]>::to_vec));
    new.concat()
}

/// How many lines that stay stand together at most within a hunk, and at most at its ends.
fn context(diff: &[u8]) -> [usize; 2] {
    let mut most = [0, 0];
    let lines: Vec<&[u8]> = diff.split(|&byte| byte == b'\n').collect();
    for hunk in lines.split(|line| line.starts_with(b"@@ -")).skip(1) {
        let runs: Vec<usize> = hunk
            .split(|line| !line.starts_with(b" "))
            .map(<[&[u8]]>::len)
            .collect();
        let ends = [runs[0], runs[runs.len() - 1]];
        most[0] = most[0].max(runs.into_iter().max().unwrap_or(0));
        most[1] = most[1].max(ends.into_iter().max().unwrap_or(0));
    }
    most
}

#[test]
fn the_diff_of_random_tables_gives_their_text() {
    let format = format_in("format-patch");
    let mut random = Random::seeded();
    for round in 0..500 {
        // Most lines are in normal form already.
        let table = samples::table(&mut random, round % 60);
        let text = normal_text(&table).expect("a short text");
        let mut lines: Vec<Vec<u8>> = text
            .split_inclusive(|&byte| byte == b'\n')
            .map(<[u8]>::to_vec)
            .collect();
        for _ in 0..random.below(5) {
            let at = random.below(lines.len() as u64 + 1) as usize;
            let other = samples::table(&mut random, 2);
            lines.insert(at, [other, b"\n".to_vec()].concat());
        }
        let table = lines.concat();
        format.write("table", &table);
        let Ok(text) = normal_text(&table) else {
            continue;
        };
        let output = format.run(&["-d", "table"]);
        assert_eq!(output.status.code(), Some(0));
        let shown = table.escape_ascii();
        assert_eq!(output.stdout.is_empty(), table == text, "{shown}");
        assert_eq!(patched(&table, &output.stdout), text, "{shown}");
        let [within, ends] = context(&output.stdout);
        assert!(within <= 6 && ends <= 3, "{shown}");
    }
}

/// As many lines as may be.
#[test]
fn the_longest_tables_have_a_diff() {
    use reference::table::TABLE_BYTES;
    let format = format_in("format-long-diff");
    for line in ["\n", "A=\n", "A =\n", "#\nA=\n"] {
        let table = line.repeat(TABLE_BYTES / line.len());
        format.write("table", &table);
        let output = format.run(&["-d", "table"]);
        let text = normal_text(table.as_bytes()).expect("a text");
        assert_eq!(patched(table.as_bytes(), &output.stdout), text);
    }
}
