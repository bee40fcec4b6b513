//! What the documents and the manual show is what the commands print.

use c::{make, root, run, scratch, told, word};
use std::fs;

/// The indented blocks of a document, without their indentation. Blank lines within one are of it.
fn blocks(document: &str) -> Vec<String> {
    let text = fs::read_to_string(root().join(document)).expect("the document");
    let mut blocks = vec![String::new()];
    let mut blank = 0;
    for line in text.lines() {
        let block = blocks.last_mut().expect("a block");
        match line.strip_prefix("    ") {
            Some(text) => {
                block.push_str(&"\n".repeat(blank));
                block.push_str(&format!("{text}\n"));
                blank = 0;
            }
            None if line.is_empty() && !block.is_empty() => blank += 1,
            None => {
                blocks.push(String::new());
                blank = 0;
            }
        }
    }
    blocks
}

#[test]
fn make_example_prints_what_is_shown() {
    let _ = make(&["all"]);
    let (text, _) = told(&make(&["-s", "example"]));
    let shown = blocks("README.md");
    assert!(shown.contains(&text), "the README doesn't show:\n{text}");
}

/// Commands, each with what it prints: the status is 1 where that has an error.
fn prints(transcripts: &str) -> usize {
    let transcripts = transcripts.strip_prefix("$ ").expect("a command");
    let each = transcripts.split("\n$ ");
    each.map(|transcript| {
        let (command, text) = transcript.split_once('\n').expect("a command");
        let (found, status) = script(command);
        assert_eq!(found.trim_end(), text.trim_end(), "{command}");
        assert_eq!(status, Some(text.contains(": error: ").into()), "{command}");
    })
    .count()
}

/// Every block of the README and of the daemon's page that starts with a command.
#[test]
fn the_documents_show_what_is_printed() {
    for (document, least) in [("README.md", 4), ("docs/DAEMON.md", 3)] {
        let blocks = blocks(document);
        let transcripts = blocks.iter().filter(|block| block.starts_with("$ "));
        let count: usize = transcripts.map(|block| prints(block)).sum();
        assert!(count >= least, "{document} has {count}");
    }
}

/// The picture is what the command draws.
#[test]
fn the_picture_of_the_crates_is_drawn() {
    let (drawn, status) = script("awk -f docs/picture.awk crates.txt");
    assert_eq!(status, Some(0));
    let picture = fs::read_to_string(root().join("docs/crates.svg")).expect("the picture");
    assert!(picture == drawn, "make figures");
}

/// What the page says of the two day fields.
#[test]
fn the_page_of_words_shows_both_rules_for_days() {
    let page = page("eremothyn-explain.1");
    let (_, rows) = page.split_once("l l.\n").expect("a table");
    let (rows, _) = rows.split_once(".TE").expect("its end");
    assert_eq!(rows.lines().count(), 4, "{rows}");
    for row in rows.lines() {
        let (times, words) = row.split_once('|').expect("two cells");
        let (text, status) = script(&format!("echo '{times} x' | eremothyn explain -"));
        assert_eq!(status, Some(0));
        assert!(text.starts_with(&format!("line 1: {words}\n")), "{text}");
    }
}

/// Runs a script in which `eremothyn` is the command, and `crontab_firings` the program.
fn script(script: &str) -> (String, Option<i32>) {
    let _ = make(&["all"]);
    told(&run(
        "sh",
        &["-c", &format!("PATH=target/c:target/bin:$PATH; {script}")],
    ))
}

/// A page of the manual as it is read.
fn page(name: &str) -> String {
    let page = fs::read_to_string(root().join("packaging").join(name)).expect("the page");
    let signs = [("\\-", "-"), ("\\e", "\\"), ("\\(ha", "^"), ("\\(ti", "~")];
    signs
        .iter()
        .fold(page, |page, (written, sign)| page.replace(written, sign))
}

/// What stands as examples on a page.
fn examples(page: &str) -> Vec<&str> {
    let rest = page.split("\n.EX\n").skip(1);
    rest.map(|rest| rest.split(".EE\n").next().expect("an example"))
        .collect()
}

/// The examples of every page of a command.
#[test]
fn the_pages_show_what_is_printed() {
    for name in [
        "crontab_firings",
        "eremothyn-agenda",
        "eremothyn-check",
        "eremothyn-compile",
        "eremothyn-decompile",
        "eremothyn-explain",
        "eremothyn-format",
        "eremothyn-next",
    ] {
        let page = page(&format!("{name}.1"));
        assert!(prints(examples(&page)[0]) > 0);
    }
}

/// The crontab on the page of tables fires when the page says so.
#[test]
fn the_page_of_tables_shows_two_clocks() {
    let page = page("eremothyn.5");
    let table = scratch("documents-clocks").join("table");
    fs::write(&table, examples(&page)[0]).expect("the table is written");
    let minute = "1970-01-01T00:00";
    let daemon = format!("target/c/daemon {} 1 {minute} {minute}", word(&table));
    let (log, status) = script(&daemon);
    assert_eq!(status, Some(0));
    for line in [
        "entry  0  next 1970-01-01 Thu 01:00\n",
        "entry  1  next 1970-01-01 Thu 21:30  local 1970-01-01 Thu 18:00\n",
        "entry  2  next 1970-01-01 Thu 05:15  local 1970-01-01 Thu 18:00\n",
    ] {
        assert!(log.contains(line), "{log}");
    }
}

/// The values in a cell of the page's table, rising: numbers, and numbers from one to another.
fn cell_values(cell: &str) -> String {
    let number = |text: &str| text.parse::<u64>().expect("a number");
    let values = cell
        .split(", ")
        .flat_map(|part| match part.split_once(" to ") {
            Some((first, last)) => number(first)..=number(last),
            None => number(part)..=number(part),
        });
    let mut values: Vec<u64> = values.collect();
    values.sort();
    let values: Vec<String> = values.iter().map(u64::to_string).collect();
    values.join(",")
}

/// What a field means in a dialect, as a cell of the table says it: its values, rising, or the number of its refusal.
fn meant(dialect: &str, which: usize, field: &str) -> String {
    let mut fields = ["*"; 5];
    fields[which] = field;
    let table = scratch("documents-dialects").join("table");
    fs::write(&table, format!("{} a\n", fields.join(" "))).expect("the table is written");
    let options = format!("--dialect {dialect} {}", word(&table));
    let (text, status) = script(&format!("eremothyn format {options}"));
    if status == Some(0) {
        let field = text.split(' ').nth(which);
        return field.expect("a field").to_string();
    }
    let (verdict, _) = script(&format!("eremothyn check --short {options}"));
    let (_, number) = verdict.trim_end().rsplit_once('[').expect("a refusal");
    let number = number.strip_suffix(']').expect("a number");
    format!("refused ({number})")
}

/// The table of the two dialects on the page of tables is what the command does.
#[test]
fn the_page_of_tables_shows_both_dialects() {
    let page = page("eremothyn.5");
    let (_, rows) = page
        .split_once("field|written|rising|wrapping\n")
        .expect("a table");
    let (rows, _) = rows.split_once(".TE").expect("its end");
    let fields = ["minute", "hour", "day", "month", "weekday"];
    assert!(rows.lines().count() >= 10, "{rows}");
    for row in rows.lines() {
        let [field, written, rising, wrapping] = row.split('|').collect::<Vec<&str>>()[..] else {
            panic!("four cells: {row}");
        };
        let which = fields.iter().position(|&name| name == field).expect(row);
        for (dialect, cell) in [("rising", rising), ("wrapping", wrapping)] {
            let found = meant(dialect, which, written);
            match cell.starts_with("refused") {
                true => assert_eq!(found, cell, "{dialect} {row}"),
                false => assert_eq!(found, cell_values(cell), "{dialect} {row}"),
            }
        }
    }
}

/// The dump of records on their page, which was made by hand, is what its crontab compiles to, and means its text.
#[test]
fn the_page_of_records_shows_what_is_written() {
    let page = page("eremothyn-records.5");
    let [table, dump, text] = examples(&page)[..] else {
        panic!("a crontab, its records and their text");
    };
    // The digits stand before the first two spaces of a line.
    let pairs = dump.lines().flat_map(|line| {
        let (digits, _) = line.split_once("  ").expect("digits and words");
        digits.split(' ')
    });
    let records: Vec<u8> = pairs
        .map(|pair| u8::from_str_radix(pair, 16).expect("two hex digits"))
        .collect();
    assert!(page.contains(&format!("has these records, of {} bytes:", records.len())));
    let folder = scratch("documents-records");
    fs::write(folder.join("table"), table).expect("the table is written");
    fs::write(folder.join("records"), records).expect("the records are written");
    let folder = word(&folder);
    let same = format!("eremothyn compile {folder}/table | cmp - {folder}/records");
    assert_eq!(script(&same), (String::new(), Some(0)));
    let back = format!("eremothyn decompile {folder}/records");
    assert_eq!(script(&back), (text.to_string(), Some(0)));
}
