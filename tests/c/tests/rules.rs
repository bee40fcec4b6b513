//! Every rule of docs/RULES.md has a definition that names it, and every rule that is named is there.

use c::sources::{code_and_comments, files};
use c::{root, word};
use std::collections::HashSet;
use std::fs;
use std::path::{Path, PathBuf};

fn read(path: &Path) -> String {
    fs::read_to_string(path).expect("a text")
}

fn document(name: &str) -> String {
    read(&root().join("docs").join(name))
}

/// The numbers of the rules. A rule is a point that begins with its number, `- **F3.** ..`, under the heading of its letter,
/// `## F. ..`; under each letter they count from 1.
fn rules() -> Vec<String> {
    let (mut letter, mut count) = ("", 0);
    let mut rules = Vec::new();
    let page = document("RULES.md");
    for line in page.lines() {
        if let Some(title) = line.strip_prefix("## ") {
            (letter, count) = (title.split_once(". ").map_or("", |(letter, _)| letter), 0);
        }
        let point = line.strip_prefix("- **");
        if let Some((number, _)) = point.and_then(|point| point.split_once(".** ")) {
            count += 1;
            assert_eq!(number, format!("{letter}{count}"), "{line}");
            rules.push(number.to_string());
        }
    }
    rules
}

/// The rules that a text names, each a letter of the rules and a number by themselves: `C99`, `U+200B` and `ERQ1` are none.
fn cited(text: &str, rules: &[String]) -> Vec<String> {
    let is_rule = |word: &str| {
        let (letter, number) = word.split_at(1);
        rules.iter().any(|rule| rule.starts_with(letter))
            && !number.is_empty()
            && number.bytes().all(|byte| byte.is_ascii_digit())
    };
    let words = text.split(|letter: char| !letter.is_ascii_alphanumeric() && letter != '_');
    let words = words.filter(|word| !word.is_empty() && is_rule(word));
    words.map(str::to_string).collect()
}

/// The files in `crates`, or in a folder of each crate, that have comments.
fn sources(folder: &str) -> Vec<PathBuf> {
    let mut paths = files(&root().join("crates"));
    paths.retain(|path| {
        path.extension()
            .is_some_and(|kind| kind == "antt" || kind == "rt")
    });
    paths.retain(|path| path.iter().any(|part| part == folder));
    paths
}

/// The comment at the top of a file, and each of its definitions with the comment above it.
fn header_and_definitions(text: &str) -> (String, Vec<(String, String)>) {
    const STARTS: [&str; 4] = ["unfoldable pub ", "abbrev pub ", "pub record ", "pub data "];
    let mut header = None;
    let mut comment = String::new();
    let mut definitions = Vec::new();
    for line in text.lines() {
        if let Some(words) = line.strip_prefix("--") {
            comment += words;
            continue;
        }
        header.get_or_insert(comment.clone());
        let name = STARTS.iter().find_map(|start| line.strip_prefix(start));
        if let Some(name) = name.filter(|name| !name.starts_with("use ")) {
            let name = name.split(' ').next().unwrap_or_default();
            definitions.push((name.to_string(), comment.clone()));
        }
        comment.clear();
    }
    (header.unwrap_or_default(), definitions)
}

#[test]
fn every_rule_has_a_definition_that_names_it() {
    let rules = rules();
    let mut named = HashSet::new();
    for path in sources("specs") {
        let (_, definitions) = header_and_definitions(&read(&path));
        for (_, comment) in definitions {
            named.extend(cited(&comment, &rules));
        }
    }
    assert!(rules.len() >= 200, "only {} rules", rules.len());
    for rule in rules {
        assert!(named.contains(&rule), "no definition names {rule}");
    }
}

/// A file of rules says at its top which ones. The others have worked rows, or what only inner functions promise.
#[test]
fn every_definition_of_a_rule_names_it() {
    let rules = rules();
    let mut count = 0;
    for path in sources("specs") {
        let (header, definitions) = header_and_definitions(&read(&path));
        if cited(&header, &rules).is_empty() {
            continue;
        }
        for (name, comment) in definitions {
            let is_inner = comment.contains("inner functions");
            let names_one = !cited(&comment, &rules).is_empty();
            assert!(
                is_inner || names_one,
                "{}: {name} names no rule",
                word(&path)
            );
            count += 1;
        }
    }
    assert!(count >= 650, "only {count} definitions were found");
}

#[test]
fn every_rule_that_is_named_is_there() {
    let rules = rules();
    let mut texts = vec![("README.md".to_string(), read(&root().join("README.md")))];
    for path in sources("crates") {
        texts.push((word(&path).to_string(), code_and_comments(&path).1));
    }
    let documents = files(&root().join("docs"));
    let documents = documents
        .into_iter()
        .filter(|path| path.extension().is_some_and(|kind| kind == "md"));
    for path in documents.chain(files(&root().join("include"))) {
        texts.push((word(&path).to_string(), read(&path)));
    }
    for (name, text) in texts {
        for rule in cited(&text, &rules) {
            assert!(rules.contains(&rule), "{name}: there is no rule {rule}");
        }
    }
}

/// The first cell of a row has the rules that the row is about.
#[test]
fn every_rule_has_a_row_of_promises() {
    let rules = rules();
    let page = document("PROMISES.md");
    let rows = page.lines().filter_map(|line| line.strip_prefix("| "));
    let cells = rows.filter_map(|row| row.split(" | ").next());
    let named: HashSet<String> = cells.flat_map(|cell| cited(cell, &rules)).collect();
    for rule in rules {
        assert!(named.contains(&rule), "PROMISES.md has no row for {rule}");
    }
}

/// Rules have numbers here; where they came from is history, which is in docs/landings.
#[test]
fn crates_name_rules_and_no_papers() {
    for path in files(&root().join("crates")) {
        let text = String::from_utf8_lossy(&fs::read(&path).expect("a file")).to_lowercase();
        for history in ["paper 01", "ticket"] {
            assert!(!text.contains(history), "{}: {history}", word(&path));
        }
    }
}
