//! `eremothyn explain`: the words mean the times that they are made of, and the next firings are the reference program's.

mod edges;
mod known;
mod next;
mod random;
mod reader;

use c::{told, word, Subcommand};

/// What is said of a table, an entry each: the first line, and those below it.
fn explained(explain: &Subcommand, options: &[&str], table: &[u8]) -> Vec<(String, Vec<String>)> {
    let path = explain.write("table", table);
    let output = explain.run(&[options, &[word(&path)]].concat());
    assert_eq!(output.status.code(), Some(0), "{output:?}");
    let mut entries: Vec<(String, Vec<String>)> = Vec::new();
    for line in told(&output).0.lines() {
        match line.strip_prefix("    ") {
            None => entries.push((line.to_string(), Vec::new())),
            Some(below) => {
                let (_, last) = entries.last_mut().expect("an entry");
                last.push(below.to_string());
            }
        }
    }
    entries
}

/// The words of each entry, behind the number of its line and without its clock.
fn words(explain: &Subcommand, options: &[&str], table: &[u8]) -> Vec<String> {
    let entries = explained(explain, options, table);
    let words = entries.iter().map(|(first, _)| {
        let (_, words) = first.split_once(": ").expect("words");
        words.split(", by the clock ").next().expect("words")
    });
    words.map(str::to_string).collect()
}
