//! What the documents, and the comments of the crates, name between backticks is there; where a file is named with it, in that file.

use c::sources::{code_and_comments, files};
use c::{root, word};
use std::collections::HashSet;
use std::fs;
use std::path::{Path, PathBuf};

/// Every word of a file's code.
fn words(path: &Path) -> HashSet<String> {
    let is_word = |letter: char| letter.is_alphanumeric() || "_-'".contains(letter);
    let (code, _) = code_and_comments(path);
    let words = code.split(|letter| !is_word(letter));
    words.map(str::to_string).collect()
}

/// Every word of the code in some folders, and the names of their files. `n-m` is the form of a range.
fn known(folders: &[&str]) -> HashSet<String> {
    let mut known = HashSet::from(["n-m".to_string()]);
    for path in folders
        .iter()
        .flat_map(|folder| files(&root().join(folder)))
    {
        let name = path.file_stem().unwrap_or_default();
        known.insert(name.to_string_lossy().into_owned());
        if path.extension().is_some_and(|kind| kind != "edit") {
            known.extend(words(&path));
        }
    }
    known
}

/// What may be in the folder of a function's proof; a function that needs neither has no folder.
const OF_A_FUNCTION: [&str; 2] = ["Invariants.antt", "Answers.antt"];

/// The file of a crate that a text names, as `NAME/specs/FILE`, or `specs/FILE` in a comment of that crate; or the files of a
/// function's proof, where it names that folder. None of them may be there.
fn named_files(own: &str, name: &str) -> Option<Vec<PathBuf>> {
    let name = name.trim_start_matches("crates/");
    let parts: Vec<&str> = name.split('/').collect();
    let place = match parts[..] {
        ["specs" | "proofs", _] if !own.is_empty() => format!("{own}/{name}"),
        [_, "specs" | "proofs" | "must-fail", first, ..] if first != ".." => name.to_string(),
        _ => return None,
    };
    let path = root().join("crates").join(&place);
    let kind = match parts.contains(&"must-fail") {
        true => "edit",
        false => "antt",
    };
    let mut paths = match path.is_dir() {
        true => OF_A_FUNCTION.map(|part| path.join(part)).to_vec(),
        false => vec![path.with_extension(kind)],
    };
    paths.retain(|path| path.is_file());
    Some(paths)
}

/// The place that the text after a name gives: `of NAME/proofs/FILE`, or among the guarantees `[NAME]`.
fn place_after(text: &str) -> Option<String> {
    let is_end = |letter: char| !letter.is_ascii_alphanumeric() && !"/_".contains(letter);
    let word = |text: &str| text.split(is_end).next().unwrap_or_default().to_string();
    match text.strip_prefix(" [") {
        Some(name) => Some(format!("{}/proofs/Theorems", word(name))),
        None => text
            .strip_prefix(" of ")
            .or(text.strip_prefix(" in "))
            .map(word),
    }
}

/// What a text cites, each with the place that it and those listed with it are said to be in: `a`, `b` of `NAME/proofs/FILE`.
fn cited(text: &str) -> Vec<(String, Option<String>)> {
    let text = text.replace("**", "");
    let parts: Vec<&str> = text.split('`').collect();
    let mut cited: Vec<(String, Option<String>)> = Vec::new();
    let mut listed = 0;
    for pair in parts.chunks(2) {
        let (before, name) = (pair[0], pair.get(1).copied());
        let is_place = [" of ", " in "].contains(&before);
        let place = match is_place {
            true => name.map(str::to_string),
            false => place_after(before),
        };
        if ![", ", " and ", ", and "].contains(&before) {
            cited[listed..]
                .iter_mut()
                .for_each(|(_, of)| of.clone_from(&place));
            listed = cited.len() + usize::from(is_place);
        }
        cited.extend(name.map(|name| (name.to_string(), None)));
    }
    cited
}

fn is_name(text: &str) -> bool {
    let is_letter = |letter: char| letter.is_ascii_alphanumeric() || "_-/".contains(letter);
    text.starts_with(|first: char| first.is_ascii_alphabetic())
        && text.replace("::", "").chars().all(is_letter)
}

/// What is wrong with a name that a text cites: nothing, if it is there.
fn fault(own: &str, name: &str, place: Option<&str>, known: &HashSet<String>) -> Option<String> {
    if name.contains('/') {
        let is_there = named_files(own, name).is_none_or(|paths| !paths.is_empty());
        return (!is_there).then(|| format!("no file {name}"));
    }
    if !name.split("::").all(|name| known.contains(name)) {
        return Some(format!("no {name}"));
    }
    let place = place?;
    let paths = named_files(own, place)?;
    if paths.is_empty() {
        return Some(format!("no file {place} for {name}"));
    }
    let is_there = paths.iter().any(|path| words(path).contains(name));
    (!is_there).then(|| format!("no {name} in {place}"))
}

/// Looks up every name that a text cites, adds what is wrong, and answers how many there are.
fn look_up(
    whose: &str,
    own: &str,
    text: &str,
    known: &HashSet<String>,
    faults: &mut Vec<String>,
) -> usize {
    let mut names = cited(text);
    names.retain(|(name, _)| is_name(name));
    for (name, place) in &names {
        let fault = fault(own, name, place.as_deref(), known);
        faults.extend(fault.map(|fault| format!("{whose}: {fault}")));
    }
    names.len()
}

#[test]
fn the_documents_name_what_is_there() {
    let proved = known(&["crates", "tests/differential", "include"]);
    let all = &proved | &known(&["programs", "examples", "packaging", "tests/reference"]);
    let mut faults = Vec::new();
    for (document, known, least) in [
        ("PROMISES", &proved, 1_000),
        ("GUARANTEES", &proved, 30),
        ("PROVING", &proved, 100),
        ("DECISIONS", &all, 150),
    ] {
        let path = root().join(format!("docs/{document}.md"));
        let text = fs::read_to_string(path).expect("the document");
        let text = text.replace('\n', " ");
        let count = look_up(document, "", &text, known, &mut faults);
        assert!(count >= least, "{document}: only {count} names were found");
    }
    assert!(faults.is_empty(), "{}", faults.join("\n"));
}

#[test]
fn the_comments_name_what_is_there() {
    let crates = root().join("crates");
    let known = known(&["crates", "tests/differential", "include"]);
    let (mut count, mut faults) = (0, Vec::new());
    for path in files(&crates) {
        let own = path.strip_prefix(&crates).expect("a file of a crate");
        let own = own.iter().next().unwrap_or_default().to_string_lossy();
        if path
            .extension()
            .is_some_and(|kind| kind == "rt" || kind == "antt")
        {
            let (_, comments) = code_and_comments(&path);
            count += look_up(word(&path), &own, &comments, &known, &mut faults);
        }
    }
    assert!(faults.is_empty(), "{}", faults.join("\n"));
    assert!(count > 150, "only {count} names were found");
}
